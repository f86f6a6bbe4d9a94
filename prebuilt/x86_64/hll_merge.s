	.file	"rattle"
	.section	.rodata.cst16,"aM",@progbits,16
	.p2align	4, 0x0
.LCPI432d7305_0:
	.zero	16,10
.LCPI432d7305_1:
	.byte	0
	.byte	1
	.byte	1
	.byte	2
	.byte	3
	.byte	4
	.byte	4
	.byte	5
	.byte	6
	.byte	7
	.byte	7
	.byte	8
	.byte	9
	.byte	10
	.byte	10
	.byte	11
.LCPI432d7305_2:
	.byte	4
	.byte	5
	.byte	5
	.byte	6
	.byte	7
	.byte	8
	.byte	8
	.byte	9
	.byte	10
	.byte	11
	.byte	11
	.byte	12
	.byte	13
	.byte	14
	.byte	14
	.byte	15
.LCPI432d7305_3:
	.short	63
	.short	63
	.short	63
	.short	63
	.short	63
	.short	63
	.short	63
	.short	63
.LCPI432d7305_4:
	.short	16128
	.short	16128
	.short	16128
	.short	16128
	.short	16128
	.short	16128
	.short	16128
	.short	16128
.LCPI432d7305_5:
	.zero	16,1
.LCPI432d7305_6:
	.short	1
	.short	1
	.short	1
	.short	1
	.short	1
	.short	1
	.short	1
	.short	1
.LCPI432d7305_7:
	.byte	255
	.byte	0
	.byte	0
	.byte	0
	.byte	255
	.byte	0
	.byte	0
	.byte	0
	.byte	255
	.byte	0
	.byte	0
	.byte	0
	.byte	255
	.byte	0
	.byte	0
	.byte	0
.LCPI432d7305_8:
	.zero	16,63
.LCPI432d7305_9:
	.byte	63
	.byte	63
	.byte	63
	.byte	63
	.byte	63
	.byte	63
	.byte	63
	.byte	63
	.zero	1
	.zero	1
	.zero	1
	.zero	1
	.zero	1
	.zero	1
	.zero	1
	.zero	1
.LCPI432d7305_10:
	.byte	4
	.byte	12
	.byte	5
	.byte	13
	.byte	6
	.byte	14
	.byte	7
	.byte	15
	.zero	1
	.zero	1
	.zero	1
	.zero	1
	.zero	1
	.zero	1
	.zero	1
	.zero	1
.LCPI432d7305_11:
	.byte	63
	.byte	63
	.zero	1
	.zero	1
	.zero	1
	.zero	1
	.zero	1
	.zero	1
	.zero	1
	.zero	1
	.zero	1
	.zero	1
	.zero	1
	.zero	1
	.zero	1
	.zero	1
.LCPI432d7305_12:
	.long	3
	.long	0
	.long	0
	.long	0
.LCPI432d7305_14:
	.byte	4
	.byte	12
	.byte	5
	.byte	13
	.byte	6
	.byte	14
	.byte	7
	.byte	15
	.byte	0
	.byte	0
	.byte	0
	.byte	0
	.byte	0
	.byte	0
	.byte	0
	.byte	0
	.section	.rodata.cst4,"aM",@progbits,4
	.p2align	2, 0x0
.LCPI432d7305_13:
	.long	3
	.section	.text.hll_program.main.start,"ax",@progbits
	.p2align	4
	.type	hll_program.main.start,@function
hll_program.main.start:
	pushq	%rbp
	pushq	%r15
	pushq	%r14
	pushq	%r13
	pushq	%r12
	pushq	%rbx
	movq	%rsp, %r11
	subq	$64512, %r11
.LBB432d7305_1:
	subq	$3072, %rsp
	movq	$0, (%rsp)
	cmpq	%r11, %rsp
	jne	.LBB432d7305_1
	subq	$1864, %rsp
	movq	$0, 296(%rsp)
	movq	$0, 290(%rsp)
	pxor	%xmm0, %xmm0
	movdqu	%xmm0, 312(%rsp)
	movdqu	%xmm0, 336(%rsp)
	movdqu	%xmm0, 352(%rsp)
	movdqu	%xmm0, 368(%rsp)
	leaq	152(%rsp), %rbx
	movq	%rbx, 280(%rsp)
	movw	$0, 288(%rsp)
	movq	%rbx, 304(%rsp)
	movq	%rbx, 328(%rsp)
	leaq	832(%rsp), %rdi
	xorl	%ebp, %ebp
	movl	$65536, %edx
	xorl	%esi, %esi
	callq	memset@PLT
	xorl	%r15d, %r15d
	xorl	%r13d, %r13d
	movq	$0, 16(%rsp)
	jmp	.LBB432d7305_5
	.p2align	4
.LBB432d7305_3:
	movq	%r12, %rsi
	movq	%r14, %rdx
	callq	memmove@PLT
.LBB432d7305_4:
	addq	%r14, %r15
	movq	%r15, 336(%rsp)
	movq	%rbp, 344(%rsp)
	movq	%r13, 352(%rsp)
	cmpq	$-1, 16(%rsp)
	je	.LBB432d7305_86
.LBB432d7305_5:
	leaq	832(%rsp), %r12
	movl	$65536, %r14d
	movl	$65536, %edx
	xorl	%edi, %edi
	movq	%r12, %rsi
	callq	read@PLT
	testq	%rax, %rax
	js	.LBB432d7305_85
	cmpq	$65536, %rax
	cmovbq	%rax, %r14
	testq	%rax, %rax
	movq	%r13, (%rsp)
	je	.LBB432d7305_96
	cmpb	$1, 360(%rsp)
	je	.LBB432d7305_106
	incq	16(%rsp)
	movb	$0, 594(%rsp)
	movw	$0, 592(%rsp)
	movb	$0, 162(%rsp)
	movw	$0, 160(%rsp)
	testq	%r15, %r15
	je	.LBB432d7305_45
	movq	%r14, %rax
	shrq	$6, %rax
	je	.LBB432d7305_13
	shlq	$6, %rax
	xorl	%ecx, %ecx
	.p2align	4
.LBB432d7305_11:
	movdqu	832(%rsp,%rcx), %xmm0
	movdqu	848(%rsp,%rcx), %xmm1
	movdqu	864(%rsp,%rcx), %xmm2
	movdqu	880(%rsp,%rcx), %xmm3
	movdqa	.LCPI432d7305_0(%rip), %xmm4
	pcmpeqb	%xmm4, %xmm3
	pcmpeqb	%xmm4, %xmm2
	pcmpeqb	%xmm4, %xmm1
	pcmpeqb	%xmm4, %xmm0
	pmovmskb	%xmm0, %edx
	pmovmskb	%xmm1, %esi
	shll	$16, %esi
	orl	%edx, %esi
	pmovmskb	%xmm2, %edi
	shlq	$32, %rdi
	orq	%rsi, %rdi
	pmovmskb	%xmm3, %edx
	shlq	$48, %rdx
	orq	%rdi, %rdx
	jne	.LBB432d7305_17
	addq	$64, %rcx
	cmpq	%rcx, %rax
	jne	.LBB432d7305_11
.LBB432d7305_13:
	movq	%r14, %rax
	andq	$63, %rax
	je	.LBB432d7305_45
	movl	%r14d, %r13d
	andl	$131008, %r13d
	.p2align	4
.LBB432d7305_15:
	cmpb	$10, 832(%rsp,%r13)
	je	.LBB432d7305_18
	incq	%r13
	decq	%rax
	jne	.LBB432d7305_15
	jmp	.LBB432d7305_45
.LBB432d7305_17:
	rep		bsfq	%rdx, %r13
	addq	%rcx, %r13
.LBB432d7305_18:
	movq	%rbp, %rax
	subq	%r15, %rax
	cmpq	%rax, %r13
	ja	.LBB432d7305_82
.LBB432d7305_19:
	leaq	(%rbx,%r15), %rdi
	movq	%rdi, %rax
	subq	%r12, %rax
	cmpq	%r13, %rax
	jae	.LBB432d7305_22
	cmpq	$4, %r13
	jb	.LBB432d7305_21
	movq	%r15, %rax
	subq	%r12, %rax
	addq	%rbx, %rax
	cmpq	$32, %rax
	jae	.LBB432d7305_25
.LBB432d7305_21:
	xorl	%eax, %eax
.LBB432d7305_34:
	movq	%r13, %rdx
	movq	%rax, %rcx
	andq	$3, %rdx
	je	.LBB432d7305_37
	movq	%rax, %rcx
	.p2align	4
.LBB432d7305_36:
	movzbl	832(%rsp,%rcx), %esi
	movb	%sil, (%rdi,%rcx)
	incq	%rcx
	decq	%rdx
	jne	.LBB432d7305_36
.LBB432d7305_37:
	subq	%r13, %rax
	cmpq	$-4, %rax
	ja	.LBB432d7305_40
	leaq	(%rbx,%r15), %rax
	addq	$3, %rax
	.p2align	4
.LBB432d7305_39:
	movzbl	832(%rsp,%rcx), %edx
	movb	%dl, -3(%rax,%rcx)
	movzbl	833(%rsp,%rcx), %edx
	movb	%dl, -2(%rax,%rcx)
	movzbl	834(%rsp,%rcx), %edx
	movb	%dl, -1(%rax,%rcx)
	movzbl	835(%rsp,%rcx), %edx
	movb	%dl, (%rax,%rcx)
	addq	$4, %rcx
	cmpq	%rcx, %r13
	jne	.LBB432d7305_39
	jmp	.LBB432d7305_40
.LBB432d7305_22:
	leaq	832(%rsp), %rsi
	movq	%r13, %rdx
	callq	memmove@PLT
.LBB432d7305_40:
	addq	%r13, %r15
	movq	%r15, 336(%rsp)
	movq	%rbp, 344(%rsp)
	movq	(%rsp), %rcx
	incq	%rcx
	movq	$-1, %rax
	cmoveq	%rax, %rcx
	movq	%rcx, (%rsp)
	testq	%r15, %r15
	je	.LBB432d7305_42
	leaq	-1(%r15), %rcx
	cmpb	$13, -1(%rbx,%r15)
	cmovneq	%r15, %rcx
	jmp	.LBB432d7305_43
.LBB432d7305_42:
	xorl	%ecx, %ecx
.LBB432d7305_43:
	leaq	160(%rsp), %rdi
	leaq	280(%rsp), %rsi
	movq	%rbx, %rdx
	callq	hll_merge.stack.Stack.carry_line.8a2f8b2564a2651f
	cmpb	$0, 160(%rsp)
	jne	.LBB432d7305_118
	movq	$0, 336(%rsp)
	leaq	(%rsp,%r13), %r12
	addq	$833, %r12
	incq	%r13
	subq	%r13, %r14
.LBB432d7305_45:
	movq	(%rsp), %r13
.LBB432d7305_46:
	movq	%r14, %rax
	shrq	$6, %rax
	je	.LBB432d7305_50
	xorl	%ecx, %ecx
	.p2align	4
.LBB432d7305_48:
	movdqu	(%r12,%rcx), %xmm0
	movdqu	16(%r12,%rcx), %xmm1
	movdqu	32(%r12,%rcx), %xmm2
	movdqu	48(%r12,%rcx), %xmm3
	movdqa	.LCPI432d7305_0(%rip), %xmm4
	pcmpeqb	%xmm4, %xmm3
	pcmpeqb	%xmm4, %xmm2
	pcmpeqb	%xmm4, %xmm1
	pcmpeqb	%xmm4, %xmm0
	pmovmskb	%xmm0, %edx
	pmovmskb	%xmm1, %esi
	shll	$16, %esi
	orl	%edx, %esi
	pmovmskb	%xmm2, %edi
	shlq	$32, %rdi
	orq	%rsi, %rdi
	pmovmskb	%xmm3, %edx
	shlq	$48, %rdx
	orq	%rdi, %rdx
	jne	.LBB432d7305_54
	addq	$64, %rcx
	decq	%rax
	jne	.LBB432d7305_48
.LBB432d7305_50:
	movq	%r14, %rcx
	andq	$63, %rcx
	je	.LBB432d7305_59
	movq	%r14, %rax
	andq	$-64, %rax
	.p2align	4
.LBB432d7305_52:
	cmpb	$10, (%r12,%rax)
	je	.LBB432d7305_55
	incq	%rax
	decq	%rcx
	jne	.LBB432d7305_52
	jmp	.LBB432d7305_59
	.p2align	4
.LBB432d7305_54:
	rep		bsfq	%rdx, %rax
	addq	%rcx, %rax
.LBB432d7305_55:
	testq	%rax, %rax
	je	.LBB432d7305_57
	leaq	-1(%rax), %rcx
	cmpb	$13, -1(%r12,%rax)
	cmovneq	%rax, %rcx
	jmp	.LBB432d7305_58
	.p2align	4
.LBB432d7305_57:
	xorl	%ecx, %ecx
.LBB432d7305_58:
	leaq	(%r12,%rax), %rbx
	incq	%rbx
	incq	%rax
	subq	%rax, %r14
	movq	%r13, %rax
	incq	%rax
	movq	$-1, %r13
	cmovneq	%rax, %r13
	leaq	592(%rsp), %rdi
	leaq	280(%rsp), %rsi
	movq	%r12, %rdx
	callq	hll_merge.stack.Stack.carry_line.8a2f8b2564a2651f
	cmpb	$1, 592(%rsp)
	movq	%rbx, %r12
	jne	.LBB432d7305_46
	jmp	.LBB432d7305_84
	.p2align	4
.LBB432d7305_59:
	movq	336(%rsp), %r15
	movq	344(%rsp), %rbp
	movq	%rbp, %rax
	subq	%r15, %rax
	cmpq	%rax, %r14
	ja	.LBB432d7305_80
.LBB432d7305_60:
	movq	328(%rsp), %rbx
	leaq	(%rbx,%r15), %rdi
	movq	%rdi, %rax
	subq	%r12, %rax
	cmpq	%r14, %rax
	jae	.LBB432d7305_3
	cmpq	$4, %r14
	jb	.LBB432d7305_62
	cmpq	$32, %rax
	jae	.LBB432d7305_65
.LBB432d7305_62:
	xorl	%eax, %eax
.LBB432d7305_74:
	movq	%r14, %rdx
	movq	%rax, %rcx
	andq	$3, %rdx
	je	.LBB432d7305_77
	movq	%rax, %rcx
	.p2align	4
.LBB432d7305_76:
	movzbl	(%r12,%rcx), %esi
	movb	%sil, (%rdi,%rcx)
	incq	%rcx
	decq	%rdx
	jne	.LBB432d7305_76
.LBB432d7305_77:
	subq	%r14, %rax
	cmpq	$-4, %rax
	ja	.LBB432d7305_4
	leaq	(%rbx,%r15), %rax
	addq	$3, %rax
	.p2align	4
.LBB432d7305_79:
	movzbl	(%r12,%rcx), %edx
	movb	%dl, -3(%rax,%rcx)
	movzbl	1(%r12,%rcx), %edx
	movb	%dl, -2(%rax,%rcx)
	movzbl	2(%r12,%rcx), %edx
	movb	%dl, -1(%rax,%rcx)
	movzbl	3(%r12,%rcx), %edx
	movb	%dl, (%rax,%rcx)
	addq	$4, %rcx
	cmpq	%rcx, %r14
	jne	.LBB432d7305_79
	jmp	.LBB432d7305_4
.LBB432d7305_65:
	cmpq	$32, %r14
	jae	.LBB432d7305_67
	xorl	%eax, %eax
	jmp	.LBB432d7305_71
.LBB432d7305_67:
	movq	%r14, %rax
	andq	$-32, %rax
	leaq	(%rbx,%r15), %rcx
	addq	$16, %rcx
	xorl	%edx, %edx
	.p2align	4
.LBB432d7305_68:
	movdqu	(%r12,%rdx), %xmm0
	movdqu	16(%r12,%rdx), %xmm1
	movdqu	%xmm0, -16(%rcx,%rdx)
	movdqu	%xmm1, (%rcx,%rdx)
	addq	$32, %rdx
	cmpq	%rdx, %rax
	jne	.LBB432d7305_68
	cmpq	%rax, %r14
	je	.LBB432d7305_4
	testb	$28, %r14b
	je	.LBB432d7305_74
.LBB432d7305_71:
	movq	%rax, %rcx
	movq	%r14, %rax
	andq	$-4, %rax
	.p2align	4
.LBB432d7305_72:
	movl	(%r12,%rcx), %edx
	movl	%edx, (%rdi,%rcx)
	addq	$4, %rcx
	cmpq	%rcx, %rax
	jne	.LBB432d7305_72
	cmpq	%rax, %r14
	je	.LBB432d7305_4
	jmp	.LBB432d7305_74
.LBB432d7305_80:
	leaq	328(%rsp), %rdi
	movq	%r14, %rsi
	callq	std_alloc.vec.Vec.grow_amortized.e3d5df6901cfba47
	testb	%al, %al
	je	.LBB432d7305_165
	movq	336(%rsp), %r15
	movq	344(%rsp), %rbp
	jmp	.LBB432d7305_60
.LBB432d7305_25:
	cmpq	$32, %r13
	jae	.LBB432d7305_27
	xorl	%eax, %eax
	jmp	.LBB432d7305_31
.LBB432d7305_27:
	movq	%r13, %rax
	andq	$-32, %rax
	leaq	(%rbx,%r15), %rcx
	addq	$16, %rcx
	xorl	%edx, %edx
	.p2align	4
.LBB432d7305_28:
	movdqu	832(%rsp,%rdx), %xmm0
	movdqu	848(%rsp,%rdx), %xmm1
	movdqu	%xmm0, -16(%rcx,%rdx)
	movdqu	%xmm1, (%rcx,%rdx)
	addq	$32, %rdx
	cmpq	%rdx, %rax
	jne	.LBB432d7305_28
	cmpq	%rax, %r13
	je	.LBB432d7305_40
	testb	$28, %r13b
	je	.LBB432d7305_34
.LBB432d7305_31:
	movq	%rax, %rcx
	movq	%r13, %rax
	andq	$-4, %rax
	.p2align	4
.LBB432d7305_32:
	movl	832(%rsp,%rcx), %edx
	movl	%edx, (%rdi,%rcx)
	addq	$4, %rcx
	cmpq	%rcx, %rax
	jne	.LBB432d7305_32
	cmpq	%rax, %r13
	je	.LBB432d7305_40
	jmp	.LBB432d7305_34
.LBB432d7305_82:
	leaq	328(%rsp), %rdi
	movq	%r13, %rsi
	callq	std_alloc.vec.Vec.grow_amortized.e3d5df6901cfba47
	testb	%al, %al
	je	.LBB432d7305_166
	movq	328(%rsp), %rbx
	movq	336(%rsp), %r15
	movq	344(%rsp), %rbp
	jmp	.LBB432d7305_19
.LBB432d7305_84:
	movq	%r13, (%rsp)
	movzbl	593(%rsp), %eax
	movl	%eax, 16(%rsp)
	movzbl	594(%rsp), %eax
	jmp	.LBB432d7305_119
.LBB432d7305_85:
	leaq	160(%rsp), %rdi
	callq	std_io.io.error.last_error
.LBB432d7305_86:
	movq	%r13, (%rsp)
	movq	280(%rsp), %r15
	movq	288(%rsp), %r14
	movq	296(%rsp), %rax
	movq	%rax, 32(%rsp)
	movq	304(%rsp), %rax
	movq	%rax, 8(%rsp)
	movq	320(%rsp), %rax
	movq	%rax, 16(%rsp)
	testq	%r14, %r14
	je	.LBB432d7305_89
	leaq	840(%rsp), %r12
	leaq	16(%r15), %r13
	.p2align	4
.LBB432d7305_88:
	movzbl	-8(%r13), %eax
	movups	64(%r13), %xmm0
	movups	%xmm0, 64(%r12)
	movdqu	(%r13), %xmm0
	movdqu	16(%r13), %xmm1
	movdqu	32(%r13), %xmm2
	movdqu	48(%r13), %xmm3
	movdqu	%xmm3, 48(%r12)
	movdqu	%xmm2, 32(%r12)
	movdqu	%xmm1, 16(%r12)
	movdqu	%xmm0, (%r12)
	movq	%rax, 832(%rsp)
	leaq	832(%rsp), %rdi
	callq	hll_sketch.mode.Mode.drop.309f015d8caa795c
	addq	$96, %r13
	decq	%r14
	jne	.LBB432d7305_88
.LBB432d7305_89:
	cmpq	$0, 32(%rsp)
	je	.LBB432d7305_91
	movq	%r15, %rdi
	callq	rattle_dealloc@PLT
.LBB432d7305_91:
	cmpq	$0, 16(%rsp)
	movq	(%rsp), %r12
	je	.LBB432d7305_93
	movq	8(%rsp), %rdi
	callq	rattle_dealloc@PLT
.LBB432d7305_93:
	movb	$6, %al
	movl	%eax, 16(%rsp)
	testq	%rbp, %rbp
	je	.LBB432d7305_95
	movq	%rbx, %rdi
	callq	rattle_dealloc@PLT
.LBB432d7305_95:
	movl	$0, 32(%rsp)
	xorl	%r14d, %r14d
	jmp	.LBB432d7305_131
.LBB432d7305_96:
	movl	290(%rsp), %r14d
	movzwl	294(%rsp), %r13d
	movq	296(%rsp), %r8
	movq	304(%rsp), %rdi
	movzbl	360(%rsp), %eax
	movq	368(%rsp), %r12
	movzbl	376(%rsp), %esi
	movzbl	377(%rsp), %edx
	pxor	%xmm0, %xmm0
	movdqa	%xmm0, 832(%rsp)
	movdqa	%xmm0, 848(%rsp)
	movdqa	%xmm0, 864(%rsp)
	movdqa	%xmm0, 880(%rsp)
	movdqa	%xmm0, 896(%rsp)
	movdqa	%xmm0, 912(%rsp)
	movdqa	%xmm0, 496(%rsp)
	movdqa	%xmm0, 512(%rsp)
	movdqa	%xmm0, 528(%rsp)
	movdqa	%xmm0, 544(%rsp)
	movdqa	%xmm0, 560(%rsp)
	movq	$0, 574(%rsp)
	movdqa	%xmm0, 592(%rsp)
	movdqa	%xmm0, 608(%rsp)
	movdqa	%xmm0, 624(%rsp)
	movdqa	%xmm0, 640(%rsp)
	movdqa	%xmm0, 656(%rsp)
	movq	$0, 672(%rsp)
	movdqa	%xmm0, 752(%rsp)
	movdqa	%xmm0, 736(%rsp)
	movdqa	%xmm0, 720(%rsp)
	movdqa	%xmm0, 704(%rsp)
	movdqa	%xmm0, 688(%rsp)
	movq	$0, 768(%rsp)
	movzwl	288(%rsp), %ecx
	movw	%cx, 72(%rsp)
	movq	280(%rsp), %rcx
	movq	%rcx, 64(%rsp)
	movdqa	%xmm0, 448(%rsp)
	movdqa	%xmm0, 432(%rsp)
	movdqa	%xmm0, 416(%rsp)
	movdqa	%xmm0, 400(%rsp)
	movdqa	%xmm0, 384(%rsp)
	movb	$0, 258(%rsp)
	movw	$0, 256(%rsp)
	movw	%r13w, 78(%rsp)
	movl	%r14d, 74(%rsp)
	movq	%r8, 80(%rsp)
	movq	%rdi, 88(%rsp)
	movq	320(%rsp), %rcx
	movdqu	312(%rsp), %xmm0
	movdqu	%xmm0, 96(%rsp)
	cmpb	$1, %al
	jne	.LBB432d7305_107
	movq	%rcx, 56(%rsp)
	movq	%r8, 8(%rsp)
	movq	%rdi, 48(%rsp)
	movl	%esi, 16(%rsp)
	movl	%edx, 32(%rsp)
	testq	%rbp, %rbp
	je	.LBB432d7305_99
	movq	%rbx, %rdi
	callq	rattle_dealloc@PLT
.LBB432d7305_99:
	movq	64(%rsp), %rbx
	movq	72(%rsp), %r14
	testq	%r14, %r14
	je	.LBB432d7305_102
	leaq	168(%rsp), %r15
	leaq	16(%rbx), %r13
	.p2align	4
.LBB432d7305_101:
	movzbl	-8(%r13), %eax
	movups	64(%r13), %xmm0
	movups	%xmm0, 64(%r15)
	movdqu	(%r13), %xmm0
	movdqu	16(%r13), %xmm1
	movdqu	32(%r13), %xmm2
	movdqu	48(%r13), %xmm3
	movdqu	%xmm3, 48(%r15)
	movdqu	%xmm2, 32(%r15)
	movdqu	%xmm1, 16(%r15)
	movdqu	%xmm0, (%r15)
	movq	%rax, 160(%rsp)
	leaq	160(%rsp), %rdi
	callq	hll_sketch.mode.Mode.drop.309f015d8caa795c
	addq	$96, %r13
	decq	%r14
	jne	.LBB432d7305_101
.LBB432d7305_102:
	cmpq	$0, 8(%rsp)
	je	.LBB432d7305_104
	movq	%rbx, %rdi
	callq	rattle_dealloc@PLT
.LBB432d7305_104:
	cmpq	$0, 56(%rsp)
	je	.LBB432d7305_130
	movq	48(%rsp), %rdi
	jmp	.LBB432d7305_129
.LBB432d7305_106:
	movq	368(%rsp), %rax
	movq	%rax, (%rsp)
	movzbl	376(%rsp), %eax
	movl	%eax, 16(%rsp)
	movzbl	377(%rsp), %eax
	jmp	.LBB432d7305_119
.LBB432d7305_107:
	testq	%r15, %r15
	je	.LBB432d7305_141
	movq	(%rsp), %rax
	incq	%rax
	movq	$-1, %r14
	cmovneq	%rax, %r14
	leaq	256(%rsp), %rdi
	leaq	64(%rsp), %rsi
	movq	%rbx, %rdx
	movq	%r15, %rcx
	callq	hll_merge.stack.Stack.carry_line.8a2f8b2564a2651f
	cmpb	$0, 256(%rsp)
	movq	%r14, (%rsp)
	je	.LBB432d7305_147
	movzbl	257(%rsp), %eax
	movl	%eax, 16(%rsp)
	movzbl	258(%rsp), %eax
	movl	%eax, 32(%rsp)
	testq	%rbp, %rbp
	je	.LBB432d7305_111
	movq	%rbx, %rdi
	callq	rattle_dealloc@PLT
.LBB432d7305_111:
	movq	64(%rsp), %rbx
	movq	72(%rsp), %r15
	movq	80(%rsp), %r14
	testq	%r15, %r15
	je	.LBB432d7305_114
	leaq	168(%rsp), %r12
	leaq	16(%rbx), %r13
	.p2align	4
.LBB432d7305_113:
	movzbl	-8(%r13), %eax
	movups	64(%r13), %xmm0
	movups	%xmm0, 64(%r12)
	movdqu	(%r13), %xmm0
	movdqu	16(%r13), %xmm1
	movdqu	32(%r13), %xmm2
	movdqu	48(%r13), %xmm3
	movdqu	%xmm3, 48(%r12)
	movdqu	%xmm2, 32(%r12)
	movdqu	%xmm1, 16(%r12)
	movdqu	%xmm0, (%r12)
	movq	%rax, 160(%rsp)
	leaq	160(%rsp), %rdi
	callq	hll_sketch.mode.Mode.drop.309f015d8caa795c
	addq	$96, %r13
	decq	%r15
	jne	.LBB432d7305_113
.LBB432d7305_114:
	testq	%r14, %r14
	je	.LBB432d7305_116
	movq	%rbx, %rdi
	callq	rattle_dealloc@PLT
.LBB432d7305_116:
	cmpq	$0, 104(%rsp)
	movq	(%rsp), %r12
	je	.LBB432d7305_130
	movq	88(%rsp), %rdi
	jmp	.LBB432d7305_129
.LBB432d7305_118:
	movzwl	161(%rsp), %eax
	movl	%eax, 16(%rsp)
	shrl	$8, %eax
.LBB432d7305_119:
	movl	%eax, 32(%rsp)
.LBB432d7305_120:
	movq	280(%rsp), %r14
	movq	288(%rsp), %r13
	movq	296(%rsp), %r12
	movq	304(%rsp), %rax
	movq	%rax, 8(%rsp)
	movq	320(%rsp), %r15
	testq	%r13, %r13
	je	.LBB432d7305_123
	leaq	840(%rsp), %rbp
	leaq	16(%r14), %rbx
	.p2align	4
.LBB432d7305_122:
	movzbl	-8(%rbx), %eax
	movups	64(%rbx), %xmm0
	movups	%xmm0, 64(%rbp)
	movdqu	(%rbx), %xmm0
	movdqu	16(%rbx), %xmm1
	movdqu	32(%rbx), %xmm2
	movdqu	48(%rbx), %xmm3
	movdqu	%xmm3, 48(%rbp)
	movdqu	%xmm2, 32(%rbp)
	movdqu	%xmm1, 16(%rbp)
	movdqu	%xmm0, (%rbp)
	movq	%rax, 832(%rsp)
	leaq	832(%rsp), %rdi
	callq	hll_sketch.mode.Mode.drop.309f015d8caa795c
	addq	$96, %rbx
	decq	%r13
	jne	.LBB432d7305_122
.LBB432d7305_123:
	testq	%r12, %r12
	je	.LBB432d7305_125
	movq	%r14, %rdi
	callq	rattle_dealloc@PLT
.LBB432d7305_125:
	testq	%r15, %r15
	movq	(%rsp), %r12
	je	.LBB432d7305_127
	movq	8(%rsp), %rdi
	callq	rattle_dealloc@PLT
.LBB432d7305_127:
	cmpq	$0, 344(%rsp)
	je	.LBB432d7305_130
	movq	328(%rsp), %rdi
.LBB432d7305_129:
	callq	rattle_dealloc@PLT
.LBB432d7305_130:
	xorl	%r14d, %r14d
	.p2align	4
.LBB432d7305_131:
	leaq	.Lstatic.11(%rip), %rsi
	addq	%r14, %rsi
	movl	$5, %ebx
	subq	%r14, %rbx
	movl	$2, %edi
	movq	%rbx, %rdx
	callq	write@PLT
	testq	%rax, %rax
	js	.LBB432d7305_204
	cmpq	%rbx, %rax
	cmovbq	%rax, %rbx
	testq	%rbx, %rbx
	je	.LBB432d7305_205
	addq	%rbx, %r14
	cmpq	$4, %r14
	jbe	.LBB432d7305_131
	leaq	280(%rsp), %rdi
	movq	%r12, %rsi
	callq	hll_text.refusal.write_number.03326aa510967ad1
	cmpb	$0, 280(%rsp)
	jne	.LBB432d7305_205
	leaq	.Lstatic.12(%rip), %rsi
	movl	$2, %edx
	movl	$2, %edi
	callq	write@PLT
	testq	%rax, %rax
	js	.LBB432d7305_204
	je	.LBB432d7305_205
	cmpq	$1, %rax
	jne	.LBB432d7305_142
	leaq	.Lstatic.12+1(%rip), %rsi
	movl	$1, %edx
	movl	$2, %edi
	callq	write@PLT
	testq	%rax, %rax
	js	.LBB432d7305_204
	je	.LBB432d7305_205
	movzbl	16(%rsp), %eax
	leaq	.LJTI432d7305_1(%rip), %rcx
	movslq	(%rcx,%rax,4), %rax
	addq	%rcx, %rax
	jmpq	*%rax
.LBB432d7305_141:
	movq	%rcx, 56(%rsp)
	movq	%r8, 8(%rsp)
	movq	%rdi, 48(%rsp)
	shlq	$32, %r13
	movq	64(%rsp), %r15
	movzbl	72(%rsp), %ecx
	movzbl	73(%rsp), %r12d
	jmp	.LBB432d7305_148
.LBB432d7305_142:
	movzbl	16(%rsp), %eax
	leaq	.LJTI432d7305_1(%rip), %rcx
	movslq	(%rcx,%rax,4), %rax
	addq	%rcx, %rax
	jmpq	*%rax
.LBB432d7305_143:
	xorl	%r14d, %r14d
.LBB432d7305_144:
	leaq	.Lstatic.13(%rip), %rsi
	addq	%r14, %rsi
	movl	$6, %ebx
	subq	%r14, %rbx
	movl	$2, %edi
	movq	%rbx, %rdx
	callq	write@PLT
	testq	%rax, %rax
	js	.LBB432d7305_204
	cmpq	%rbx, %rax
	cmovbq	%rax, %rbx
	testq	%rbx, %rbx
	je	.LBB432d7305_205
	addq	%rbx, %r14
	cmpq	$5, %r14
	jbe	.LBB432d7305_144
	jmp	.LBB432d7305_203
.LBB432d7305_147:
	movq	64(%rsp), %r15
	movzbl	72(%rsp), %ecx
	movzbl	73(%rsp), %r12d
	movl	74(%rsp), %r14d
	movzwl	78(%rsp), %r13d
	shlq	$32, %r13
	movq	80(%rsp), %rax
	movq	%rax, 8(%rsp)
	movq	88(%rsp), %rax
	movq	%rax, 48(%rsp)
	movq	104(%rsp), %rax
	movq	%rax, 56(%rsp)
.LBB432d7305_148:
	testq	%rbp, %rbp
	je	.LBB432d7305_150
	movq	%rbx, %rdi
	movl	%ecx, %ebx
	callq	rattle_dealloc@PLT
	movl	%ebx, %ecx
.LBB432d7305_150:
	orq	%r13, %r14
	shlq	$16, %r14
	movzbl	%r12b, %eax
	shll	$8, %eax
	orq	%r14, %rax
	movzbl	%cl, %ebx
	orq	%rax, %rbx
	movq	(%rsp), %r13
	je	.LBB432d7305_160
	cmpq	$1, %rbx
	jne	.LBB432d7305_158
	movzbl	(%r15), %ebx
	movzbl	8(%r15), %r12d
	movups	80(%r15), %xmm0
	movaps	%xmm0, 128(%rsp)
	movups	64(%r15), %xmm0
	movaps	%xmm0, 112(%rsp)
	movups	48(%r15), %xmm0
	movaps	%xmm0, 96(%rsp)
	movups	32(%r15), %xmm0
	movaps	%xmm0, 80(%rsp)
	movups	16(%r15), %xmm0
	movaps	%xmm0, 64(%rsp)
	cmpq	$0, 8(%rsp)
	je	.LBB432d7305_154
	movq	%r15, %rdi
	callq	rattle_dealloc@PLT
.LBB432d7305_154:
	cmpq	$0, 56(%rsp)
	je	.LBB432d7305_156
	movq	48(%rsp), %rdi
	callq	rattle_dealloc@PLT
.LBB432d7305_156:
	movzbl	%bl, %r14d
	movaps	128(%rsp), %xmm0
	movaps	%xmm0, 448(%rsp)
	movaps	64(%rsp), %xmm1
	movaps	80(%rsp), %xmm2
	movaps	96(%rsp), %xmm3
	movdqa	112(%rsp), %xmm4
	movdqa	%xmm4, 432(%rsp)
	movups	%xmm1, 502(%rsp)
	movups	%xmm2, 518(%rsp)
	movups	%xmm3, 534(%rsp)
	movdqu	%xmm4, 550(%rsp)
	movups	%xmm0, 566(%rsp)
	movb	%r14b, 832(%rsp)
	movq	%r12, 840(%rsp)
	leaq	848(%rsp), %rbx
	movups	566(%rsp), %xmm0
	movaps	%xmm0, 912(%rsp)
	movdqu	502(%rsp), %xmm0
	movdqu	518(%rsp), %xmm1
	movdqu	534(%rsp), %xmm2
	movdqu	550(%rsp), %xmm3
	movdqa	%xmm3, 896(%rsp)
	movdqa	%xmm2, 880(%rsp)
	movdqa	%xmm1, 864(%rsp)
	movdqa	%xmm0, 848(%rsp)
	leaq	.LJTI432d7305_0(%rip), %rax
	movslq	(%rax,%r12,4), %rcx
	addq	%rax, %rcx
	jmpq	*%rcx
.LBB432d7305_157:
	movl	904(%rsp), %eax
	pxor	%xmm0, %xmm0
	movdqa	%xmm0, 160(%rsp)
	movdqa	%xmm0, 176(%rsp)
	movq	856(%rsp), %rcx
	xorl	%edx, %edx
	testq	%rcx, %rcx
	sete	%dl
	shll	$2, %eax
	andl	$12, %eax
	shlq	$56, %rax
	movzbl	%cl, %ecx
	shlq	$48, %rcx
	orq	%rax, %rcx
	shlq	$42, %rdx
	orq	%rcx, %rdx
	shll	$24, %r14d
	orq	%rdx, %r14
	movabsq	$8808978383106, %rax
	orq	%r14, %rax
	movq	%rax, 64(%rsp)
	leaq	160(%rsp), %rdi
	leaq	64(%rsp), %rdx
	movl	$8, %ecx
	jmp	.LBB432d7305_214
.LBB432d7305_158:
	leaq	168(%rsp), %r14
	leaq	16(%r15), %r12
	.p2align	4
.LBB432d7305_159:
	movzbl	-8(%r12), %eax
	movups	64(%r12), %xmm0
	movups	%xmm0, 64(%r14)
	movdqu	(%r12), %xmm0
	movdqu	16(%r12), %xmm1
	movdqu	32(%r12), %xmm2
	movdqu	48(%r12), %xmm3
	movdqu	%xmm3, 48(%r14)
	movdqu	%xmm2, 32(%r14)
	movdqu	%xmm1, 16(%r14)
	movdqu	%xmm0, (%r14)
	movq	%rax, 160(%rsp)
	leaq	160(%rsp), %rdi
	callq	hll_sketch.mode.Mode.drop.309f015d8caa795c
	addq	$96, %r12
	decq	%rbx
	jne	.LBB432d7305_159
.LBB432d7305_160:
	cmpq	$0, 8(%rsp)
	je	.LBB432d7305_162
	movq	%r15, %rdi
	callq	rattle_dealloc@PLT
.LBB432d7305_162:
	cmpq	$0, 56(%rsp)
	je	.LBB432d7305_164
	movq	48(%rsp), %rdi
	callq	rattle_dealloc@PLT
.LBB432d7305_164:
	movb	$4, %al
	movl	%eax, 16(%rsp)
	movl	$0, 32(%rsp)
	movq	%r13, %r12
	xorl	%r14d, %r14d
	jmp	.LBB432d7305_131
.LBB432d7305_165:
	movq	%r13, (%rsp)
.LBB432d7305_166:
	movb	$5, %al
	movl	%eax, 16(%rsp)
	movl	$0, 32(%rsp)
	jmp	.LBB432d7305_120
.LBB432d7305_167:
	xorl	%r14d, %r14d
.LBB432d7305_168:
	leaq	.Lstatic.16(%rip), %rsi
	addq	%r14, %rsi
	movl	$5, %ebx
	subq	%r14, %rbx
	movl	$2, %edi
	movq	%rbx, %rdx
	callq	write@PLT
	testq	%rax, %rax
	js	.LBB432d7305_204
	cmpq	%rbx, %rax
	cmovbq	%rax, %rbx
	testq	%rbx, %rbx
	je	.LBB432d7305_205
	addq	%rbx, %r14
	cmpq	$4, %r14
	jbe	.LBB432d7305_168
	jmp	.LBB432d7305_203
.LBB432d7305_171:
	xorl	%r14d, %r14d
.LBB432d7305_172:
	leaq	.Lstatic.15(%rip), %rsi
	addq	%r14, %rsi
	movl	$3, %ebx
	subq	%r14, %rbx
	movl	$2, %edi
	movq	%rbx, %rdx
	callq	write@PLT
	testq	%rax, %rax
	js	.LBB432d7305_204
	cmpq	%rbx, %rax
	cmovbq	%rax, %rbx
	testq	%rbx, %rbx
	je	.LBB432d7305_205
	addq	%rbx, %r14
	cmpq	$2, %r14
	jbe	.LBB432d7305_172
	jmp	.LBB432d7305_203
.LBB432d7305_175:
	xorl	%r14d, %r14d
.LBB432d7305_176:
	leaq	.Lstatic.1(%rip), %rsi
	addq	%r14, %rsi
	movl	$6, %ebx
	subq	%r14, %rbx
	movl	$2, %edi
	movq	%rbx, %rdx
	callq	write@PLT
	testq	%rax, %rax
	js	.LBB432d7305_204
	cmpq	%rbx, %rax
	cmovbq	%rax, %rbx
	movl	$1, %eax
	testq	%rbx, %rbx
	je	.LBB432d7305_206
	addq	%rbx, %r14
	cmpq	$5, %r14
	jbe	.LBB432d7305_176
	leaq	.Lswitch.table.hll_program.main.start(%rip), %rax
	movzbl	32(%rsp), %ecx
	movq	(%rax,%rcx,8), %r14
	leaq	.Lswitch.table.hll_program.main.start.327.rel(%rip), %rax
	movslq	(%rax,%rcx,4), %r15
	addq	%rax, %r15
	xorl	%r12d, %r12d
.LBB432d7305_180:
	leaq	(%r15,%r12), %rsi
	movq	%r14, %rbx
	subq	%r12, %rbx
	movl	$2, %edi
	movq	%rbx, %rdx
	callq	write@PLT
	testq	%rax, %rax
	js	.LBB432d7305_204
	cmpq	%rbx, %rax
	cmovbq	%rax, %rbx
	testq	%rbx, %rbx
	je	.LBB432d7305_205
	addq	%rbx, %r12
	cmpq	%r14, %r12
	jb	.LBB432d7305_180
	jmp	.LBB432d7305_203
.LBB432d7305_183:
	xorl	%r14d, %r14d
.LBB432d7305_184:
	leaq	.Lstatic.19(%rip), %rsi
	addq	%r14, %rsi
	movl	$5, %ebx
	subq	%r14, %rbx
	movl	$2, %edi
	movq	%rbx, %rdx
	callq	write@PLT
	testq	%rax, %rax
	js	.LBB432d7305_204
	cmpq	%rbx, %rax
	cmovbq	%rax, %rbx
	testq	%rbx, %rbx
	je	.LBB432d7305_205
	addq	%rbx, %r14
	cmpq	$4, %r14
	jbe	.LBB432d7305_184
	jmp	.LBB432d7305_203
.LBB432d7305_187:
	xorl	%r14d, %r14d
.LBB432d7305_188:
	leaq	.Lstatic.14(%rip), %rsi
	addq	%r14, %rsi
	movl	$5, %ebx
	subq	%r14, %rbx
	movl	$2, %edi
	movq	%rbx, %rdx
	callq	write@PLT
	testq	%rax, %rax
	js	.LBB432d7305_204
	cmpq	%rbx, %rax
	cmovbq	%rax, %rbx
	testq	%rbx, %rbx
	je	.LBB432d7305_205
	addq	%rbx, %r14
	cmpq	$4, %r14
	jbe	.LBB432d7305_188
	jmp	.LBB432d7305_203
.LBB432d7305_191:
	xorl	%r14d, %r14d
.LBB432d7305_192:
	leaq	.Lstatic.17(%rip), %rsi
	addq	%r14, %rsi
	movl	$6, %ebx
	subq	%r14, %rbx
	movl	$2, %edi
	movq	%rbx, %rdx
	callq	write@PLT
	testq	%rax, %rax
	js	.LBB432d7305_204
	cmpq	%rbx, %rax
	cmovbq	%rax, %rbx
	testq	%rbx, %rbx
	je	.LBB432d7305_205
	addq	%rbx, %r14
	cmpq	$5, %r14
	jbe	.LBB432d7305_192
	jmp	.LBB432d7305_203
.LBB432d7305_195:
	xorl	%r14d, %r14d
.LBB432d7305_196:
	leaq	.Lstatic.18(%rip), %rsi
	addq	%r14, %rsi
	movl	$4, %ebx
	subq	%r14, %rbx
	movl	$2, %edi
	movq	%rbx, %rdx
	callq	write@PLT
	testq	%rax, %rax
	js	.LBB432d7305_204
	cmpq	%rbx, %rax
	cmovbq	%rax, %rbx
	testq	%rbx, %rbx
	je	.LBB432d7305_205
	addq	%rbx, %r14
	cmpq	$3, %r14
	jbe	.LBB432d7305_196
	jmp	.LBB432d7305_203
.LBB432d7305_199:
	xorl	%r14d, %r14d
.LBB432d7305_200:
	leaq	.Lstatic.7(%rip), %rsi
	addq	%r14, %rsi
	movl	$4, %ebx
	subq	%r14, %rbx
	movl	$2, %edi
	movq	%rbx, %rdx
	callq	write@PLT
	testq	%rax, %rax
	js	.LBB432d7305_204
	cmpq	%rbx, %rax
	cmovbq	%rax, %rbx
	testq	%rbx, %rbx
	je	.LBB432d7305_205
	addq	%rbx, %r14
	cmpq	$3, %r14
	jbe	.LBB432d7305_200
.LBB432d7305_203:
	leaq	.Lstatic.9(%rip), %rsi
	movl	$1, %edx
	movl	$2, %edi
	callq	write@PLT
	testq	%rax, %rax
	jns	.LBB432d7305_205
.LBB432d7305_204:
	leaq	832(%rsp), %rdi
	callq	std_io.io.error.last_error
.LBB432d7305_205:
	movl	$1, %eax
.LBB432d7305_206:
	addq	$66376, %rsp
	popq	%rbx
	popq	%r12
	popq	%r13
	popq	%r14
	popq	%r15
	popq	%rbp
	retq
.LBB432d7305_207:
	movq	864(%rsp), %r15
	movq	872(%rsp), %r12
	cmpb	$1, 852(%rsp)
	jne	.LBB432d7305_215
	movl	856(%rsp), %ebp
	jmp	.LBB432d7305_219
.LBB432d7305_209:
	pxor	%xmm0, %xmm0
	movdqa	%xmm0, 400(%rsp)
	movdqa	%xmm0, 384(%rsp)
	movzbl	880(%rsp), %r12d
	cmpb	$1, %r12b
	jne	.LBB432d7305_221
	movq	888(%rsp), %rax
	movq	16(%rax), %rax
	jmp	.LBB432d7305_222
.LBB432d7305_211:
	movq	864(%rsp), %r15
	movq	872(%rsp), %rax
	cmpb	$1, 852(%rsp)
	jne	.LBB432d7305_225
	movl	856(%rsp), %r13d
	leaq	(%rax,%rax,2), %r12
	jmp	.LBB432d7305_256
.LBB432d7305_213:
	movzbl	904(%rsp), %eax
	pxor	%xmm0, %xmm0
	movdqa	%xmm0, 160(%rsp)
	movdqa	%xmm0, 176(%rsp)
	movl	856(%rsp), %ecx
	shlb	$2, %al
	andb	$12, %al
	movd	.LCPI432d7305_13(%rip), %xmm0
	movl	$1, %edx
	pinsrb	$1, %edx, %xmm0
	incb	%al
	movl	$7, %edx
	pinsrb	$2, %edx, %xmm0
	pinsrb	$3, %r14d, %xmm0
	pinsrb	$4, 848(%rsp), %xmm0
	movl	$8, %edx
	pinsrb	$5, %edx, %xmm0
	movzbl	%al, %eax
	pinsrb	$7, %eax, %xmm0
	movq	%xmm0, 64(%rsp)
	movl	%ecx, 72(%rsp)
	leaq	160(%rsp), %rdi
	leaq	64(%rsp), %rdx
	movl	$12, %ecx
.LBB432d7305_214:
	movq	%rbx, %rsi
	callq	hll_coupons.container.Container.image.8a2f8b2564a2651f
	movzbl	160(%rsp), %r15d
	movzbl	161(%rsp), %r12d
	movq	168(%rsp), %rbp
	movq	176(%rsp), %r9
	movq	184(%rsp), %r14
	testb	%r15b, %r15b
	jne	.LBB432d7305_346
	jmp	.LBB432d7305_347
.LBB432d7305_215:
	movq	%r12, %rbx
	xorl	%ebp, %ebp
	shrq	$13, %rbx
	je	.LBB432d7305_218
	movq	%r15, %r13
.LBB432d7305_217:
	movl	$8192, %esi
	movq	%r13, %rdi
	callq	hll_kernels.kernels.zeros_in
	addq	%rax, %rbp
	addq	$8192, %r13
	decq	%rbx
	jne	.LBB432d7305_217
.LBB432d7305_218:
	movl	%r12d, %esi
	andl	$8191, %esi
	movq	%r12, %rdi
	andq	$-8192, %rdi
	addq	%r15, %rdi
	callq	hll_kernels.kernels.zeros_in
	addl	%eax, %ebp
	movq	(%rsp), %r13
	leaq	848(%rsp), %rbx
.LBB432d7305_219:
	pxor	%xmm0, %xmm0
	movdqa	%xmm0, 80(%rsp)
	movdqa	%xmm0, 64(%rsp)
	movdqu	542(%rsp), %xmm0
	movdqu	558(%rsp), %xmm1
	movdqa	%xmm0, 160(%rsp)
	movdqa	%xmm1, 176(%rsp)
	movl	%ebp, 192(%rsp)
	movl	$0, 196(%rsp)
	leaq	40(%r12), %rcx
	orl	$512, %r14d
	leaq	64(%rsp), %rdi
	leaq	160(%rsp), %rsi
	movl	%r14d, %edx
	callq	hll_registers.preamble.Preamble.start_image.309f015d8caa795c
	cmpb	$0, 64(%rsp)
	je	.LBB432d7305_232
	movb	$1, %r15b
	movzbl	65(%rsp), %r12d
	jmp	.LBB432d7305_224
.LBB432d7305_221:
	xorl	%eax, %eax
.LBB432d7305_222:
	movl	852(%rsp), %ecx
	movdqu	550(%rsp), %xmm0
	movdqu	566(%rsp), %xmm1
	movdqa	%xmm0, 160(%rsp)
	movdqa	%xmm1, 176(%rsp)
	movl	%ecx, 192(%rsp)
	movl	%eax, 196(%rsp)
	movzbl	848(%rsp), %ecx
	decb	%cl
	movl	$1, %edx
	shlq	%cl, %rdx
	leaq	(%rdx,%rax,4), %rcx
	addq	$40, %rcx
	movzbl	849(%rsp), %eax
	shll	$24, %eax
	leal	(%rax,%r14), %edx
	addl	$524288, %edx
	leaq	384(%rsp), %rdi
	leaq	160(%rsp), %rsi
	callq	hll_registers.preamble.Preamble.start_image.309f015d8caa795c
	cmpb	$0, 384(%rsp)
	je	.LBB432d7305_243
	movb	$1, %r15b
	movzbl	385(%rsp), %r12d
.LBB432d7305_224:
	xorl	%ebp, %ebp
	xorl	%r9d, %r9d
	xorl	%r14d, %r14d
	testb	%r15b, %r15b
	jne	.LBB432d7305_346
	jmp	.LBB432d7305_347
.LBB432d7305_225:
	leaq	(%rax,%rax,2), %r12
	movabsq	$-6148914691236517205, %rcx
	movq	%r12, %rax
	mulq	%rcx
	shrq	$12, %rdx
	movq	%rdx, %rax
	shlq	$11, %rax
	leaq	(%rax,%rax,2), %r9
	movq	%r12, %rsi
	subq	%r9, %rsi
	xorl	%r13d, %r13d
	cmpq	$6144, %r12
	jb	.LBB432d7305_230
	movq	%r15, %rcx
	xorl	%edi, %edi
.LBB432d7305_227:
	pxor	%xmm4, %xmm4
	movl	$32, %eax
	pxor	%xmm3, %xmm3
	pxor	%xmm2, %xmm2
	pxor	%xmm1, %xmm1
	pxor	%xmm0, %xmm0
	.p2align	4
.LBB432d7305_228:
	movdqa	.LCPI432d7305_1(%rip), %xmm5
	movdqu	-32(%rcx,%rax), %xmm6
	movdqu	-20(%rcx,%rax), %xmm7
	movdqu	-8(%rcx,%rax), %xmm8
	movdqu	(%rcx,%rax), %xmm9
	pshufb	%xmm5, %xmm6
	pshufb	%xmm5, %xmm7
	pshufb	%xmm5, %xmm8
	pshufb	.LCPI432d7305_2(%rip), %xmm9
	movdqa	%xmm6, %xmm5
	psllw	$4, %xmm5
	pblendw	$170, %xmm6, %xmm5
	movdqa	%xmm7, %xmm6
	psllw	$4, %xmm6
	pblendw	$170, %xmm7, %xmm6
	movdqa	%xmm8, %xmm7
	psllw	$4, %xmm7
	pblendw	$170, %xmm8, %xmm7
	movdqa	%xmm9, %xmm8
	psllw	$4, %xmm8
	pblendw	$170, %xmm9, %xmm8
	movdqa	%xmm8, %xmm9
	psrlw	$4, %xmm9
	movdqa	%xmm7, %xmm10
	psrlw	$4, %xmm10
	movdqa	%xmm6, %xmm11
	psrlw	$4, %xmm11
	movdqa	%xmm5, %xmm12
	psrlw	$4, %xmm12
	movdqa	.LCPI432d7305_3(%rip), %xmm13
	pand	%xmm13, %xmm12
	pand	%xmm13, %xmm11
	pand	%xmm13, %xmm10
	pand	%xmm13, %xmm9
	psrlw	$2, %xmm8
	psrlw	$2, %xmm7
	psrlw	$2, %xmm6
	psrlw	$2, %xmm5
	movdqa	.LCPI432d7305_4(%rip), %xmm13
	pand	%xmm13, %xmm5
	por	%xmm12, %xmm5
	pand	%xmm13, %xmm6
	por	%xmm11, %xmm6
	pand	%xmm13, %xmm7
	por	%xmm10, %xmm7
	pand	%xmm13, %xmm8
	por	%xmm9, %xmm8
	pcmpeqb	%xmm4, %xmm5
	psubb	%xmm5, %xmm3
	pcmpeqb	%xmm4, %xmm6
	psubb	%xmm6, %xmm2
	pcmpeqb	%xmm4, %xmm7
	psubb	%xmm7, %xmm1
	pcmpeqb	%xmm4, %xmm8
	psubb	%xmm8, %xmm0
	addq	$48, %rax
	cmpq	$6176, %rax
	jne	.LBB432d7305_228
	movdqa	.LCPI432d7305_5(%rip), %xmm4
	pmaddubsw	%xmm4, %xmm3
	movdqa	.LCPI432d7305_6(%rip), %xmm5
	pmaddwd	%xmm5, %xmm3
	pmaddubsw	%xmm4, %xmm2
	pmaddwd	%xmm5, %xmm2
	pmaddubsw	%xmm4, %xmm1
	pmaddwd	%xmm5, %xmm1
	paddd	%xmm3, %xmm1
	pmaddubsw	%xmm4, %xmm0
	pmaddwd	%xmm5, %xmm0
	paddd	%xmm2, %xmm0
	paddd	%xmm1, %xmm0
	pshufd	$238, %xmm0, %xmm1
	paddd	%xmm0, %xmm1
	pshufd	$85, %xmm1, %xmm0
	paddd	%xmm1, %xmm0
	movd	%xmm0, %eax
	addq	%rax, %r13
	incq	%rdi
	addq	$6144, %rcx
	cmpq	%rdx, %rdi
	jne	.LBB432d7305_227
.LBB432d7305_230:
	movl	%esi, %edi
	movl	$2863311531, %r10d
	imulq	%r10, %rdi
	shrq	$37, %rdi
	movl	%edi, %edx
	shll	$4, %edx
	leal	(%rdx,%rdx,2), %eax
	movl	%esi, %r11d
	subl	%eax, %r11d
	pxor	%xmm1, %xmm1
	cmpq	$48, %rsi
	jae	.LBB432d7305_247
	pxor	%xmm3, %xmm3
	pxor	%xmm15, %xmm15
	pxor	%xmm2, %xmm2
	pxor	%xmm0, %xmm0
	jmp	.LBB432d7305_249
.LBB432d7305_232:
	movdqu	72(%rsp), %xmm0
	movdqa	%xmm0, 384(%rsp)
	movq	88(%rsp), %r14
	movq	%r14, 400(%rsp)
	movq	392(%rsp), %rax
	movq	%r14, %rcx
	subq	%rax, %rcx
	cmpq	%rcx, %r12
	ja	.LBB432d7305_325
.LBB432d7305_233:
	leaq	(%rax,%r12), %r9
	movq	384(%rsp), %rbp
	leaq	(%rax,%rbp), %rdi
	movq	%rdi, %rcx
	subq	%r15, %rcx
	cmpq	%r12, %rcx
	jae	.LBB432d7305_266
	cmpq	$4, %r12
	jb	.LBB432d7305_236
	cmpq	$32, %rcx
	jae	.LBB432d7305_283
.LBB432d7305_236:
	xorl	%ecx, %ecx
.LBB432d7305_237:
	movq	%r12, %rsi
	movq	%rcx, %rdx
	andq	$3, %rsi
	je	.LBB432d7305_240
	movq	%rcx, %rdx
.LBB432d7305_239:
	movzbl	(%r15,%rdx), %r8d
	movb	%r8b, (%rdi,%rdx)
	incq	%rdx
	decq	%rsi
	jne	.LBB432d7305_239
.LBB432d7305_240:
	subq	%r12, %rcx
	cmpq	$-4, %rcx
	ja	.LBB432d7305_344
	addq	%rbp, %rax
	addq	$3, %rax
.LBB432d7305_242:
	movzbl	(%r15,%rdx), %ecx
	movb	%cl, -3(%rax,%rdx)
	movzbl	1(%r15,%rdx), %ecx
	movb	%cl, -2(%rax,%rdx)
	movzbl	2(%r15,%rdx), %ecx
	movb	%cl, -1(%rax,%rdx)
	movzbl	3(%r15,%rdx), %ecx
	movb	%cl, (%rax,%rdx)
	addq	$4, %rdx
	cmpq	%rdx, %r12
	jne	.LBB432d7305_242
	jmp	.LBB432d7305_344
.LBB432d7305_243:
	movdqu	392(%rsp), %xmm0
	movdqa	%xmm0, 256(%rsp)
	movq	408(%rsp), %r14
	movq	%r14, 272(%rsp)
	movq	856(%rsp), %rsi
	movq	864(%rsp), %r15
	movq	264(%rsp), %r9
	movq	%r14, %rax
	subq	%r9, %rax
	cmpq	%rax, %r15
	ja	.LBB432d7305_327
.LBB432d7305_244:
	movq	256(%rsp), %rbp
	leaq	(%r9,%rbp), %rdi
	movq	%rdi, %rax
	subq	%rsi, %rax
	cmpq	%r15, %rax
	jae	.LBB432d7305_267
	cmpq	$4, %r15
	jb	.LBB432d7305_246
	cmpq	$32, %rax
	jae	.LBB432d7305_285
.LBB432d7305_246:
	xorl	%eax, %eax
.LBB432d7305_300:
	movq	%r15, %rdx
	movq	%rax, %rcx
	andq	$3, %rdx
	je	.LBB432d7305_303
	movq	%rax, %rcx
.LBB432d7305_302:
	movzbl	(%rsi,%rcx), %r8d
	movb	%r8b, (%rdi,%rcx)
	incq	%rcx
	decq	%rdx
	jne	.LBB432d7305_302
.LBB432d7305_303:
	subq	%r15, %rax
	cmpq	$-4, %rax
	ja	.LBB432d7305_306
	leaq	(%r9,%rbp), %rax
	addq	$3, %rax
.LBB432d7305_305:
	movzbl	(%rsi,%rcx), %edx
	movb	%dl, -3(%rax,%rcx)
	movzbl	1(%rsi,%rcx), %edx
	movb	%dl, -2(%rax,%rcx)
	movzbl	2(%rsi,%rcx), %edx
	movb	%dl, -1(%rax,%rcx)
	movzbl	3(%rsi,%rcx), %edx
	movb	%dl, (%rax,%rcx)
	addq	$4, %rcx
	cmpq	%rcx, %r15
	jne	.LBB432d7305_305
	jmp	.LBB432d7305_306
.LBB432d7305_247:
	leaq	(%r9,%r15), %rsi
	addq	$32, %rsi
	pxor	%xmm4, %xmm4
	pxor	%xmm3, %xmm3
	pxor	%xmm15, %xmm15
	pxor	%xmm2, %xmm2
	pxor	%xmm0, %xmm0
.LBB432d7305_248:
	movdqa	.LCPI432d7305_1(%rip), %xmm5
	movdqu	-32(%rsi), %xmm6
	movdqu	-20(%rsi), %xmm7
	movdqu	-8(%rsi), %xmm8
	movdqu	(%rsi), %xmm9
	pshufb	%xmm5, %xmm6
	pshufb	%xmm5, %xmm7
	pshufb	%xmm5, %xmm8
	pshufb	.LCPI432d7305_2(%rip), %xmm9
	movdqa	%xmm6, %xmm5
	psllw	$4, %xmm5
	pblendw	$170, %xmm6, %xmm5
	movdqa	%xmm7, %xmm6
	psllw	$4, %xmm6
	pblendw	$170, %xmm7, %xmm6
	movdqa	%xmm8, %xmm7
	psllw	$4, %xmm7
	pblendw	$170, %xmm8, %xmm7
	movdqa	%xmm9, %xmm8
	psllw	$4, %xmm8
	pblendw	$170, %xmm9, %xmm8
	movdqa	%xmm7, %xmm9
	psrlw	$4, %xmm9
	movdqa	%xmm6, %xmm12
	psrlw	$4, %xmm12
	movdqa	%xmm5, %xmm13
	psrlw	$4, %xmm13
	movdqa	%xmm8, %xmm11
	psrlw	$4, %xmm11
	movdqa	.LCPI432d7305_3(%rip), %xmm14
	pand	%xmm14, %xmm13
	pand	%xmm14, %xmm12
	pand	%xmm14, %xmm9
	pand	%xmm14, %xmm11
	psrlw	$2, %xmm7
	psrlw	$2, %xmm6
	psrlw	$2, %xmm5
	psrlw	$2, %xmm8
	movdqa	.LCPI432d7305_4(%rip), %xmm14
	pand	%xmm14, %xmm5
	por	%xmm13, %xmm5
	pand	%xmm14, %xmm6
	por	%xmm12, %xmm6
	pand	%xmm14, %xmm7
	por	%xmm9, %xmm7
	pand	%xmm14, %xmm8
	por	%xmm11, %xmm8
	pcmpeqb	%xmm4, %xmm5
	psubb	%xmm5, %xmm3
	pcmpeqb	%xmm4, %xmm6
	psubb	%xmm6, %xmm15
	pcmpeqb	%xmm4, %xmm7
	psubb	%xmm7, %xmm2
	pcmpeqb	%xmm4, %xmm8
	psubb	%xmm8, %xmm0
	addq	$48, %rsi
	decq	%rdi
	jne	.LBB432d7305_248
.LBB432d7305_249:
	leaq	(%rdx,%rdx,2), %rdi
	movdqa	%xmm1, 208(%rsp)
	movdqa	%xmm1, 192(%rsp)
	movdqa	%xmm1, 176(%rsp)
	movdqa	%xmm1, 160(%rsp)
	cmpq	$48, %r11
	jae	.LBB432d7305_264
	imulq	%r11, %r10
	shrq	$37, %r10
	movl	%r10d, %ecx
	shll	$4, %ecx
	leal	(%rcx,%rcx,2), %edx
	movl	%r11d, %eax
	subl	%edx, %eax
	cmpq	$3, %rax
	jb	.LBB432d7305_255
	leaq	(%rcx,%rcx,2), %rbp
	shlq	$6, %r10
	leaq	(%rsp,%r10), %rdx
	addq	$160, %rdx
	movl	$2863311531, %ebx
	imulq	%rax, %rbx
	shrq	$33, %rbx
	cmpl	$24, %eax
	jae	.LBB432d7305_273
	xorl	%r8d, %r8d
.LBB432d7305_253:
	addq	%rbp, %r9
	leaq	(%r8,%r8,2), %rax
	addq	%rax, %rdi
	addq	%r9, %rdi
	leaq	(%r15,%rdi), %rax
	addq	$2, %rax
.LBB432d7305_254:
	movzbl	-2(%rax), %ecx
	movzbl	-1(%rax), %esi
	movzbl	(%rax), %edi
	shll	$8, %esi
	movl	%edi, %r9d
	shll	$16, %r9d
	orl	%esi, %r9d
	orl	%ecx, %esi
	shrl	$6, %esi
	shrl	$12, %r9d
	shrb	$2, %dil
	andb	$63, %r9b
	movd	%ecx, %xmm1
	pinsrb	$1, %esi, %xmm1
	pand	.LCPI432d7305_11(%rip), %xmm1
	movd	(%rdx,%r8,4), %xmm4
	movzbl	%r9b, %ecx
	pinsrb	$2, %ecx, %xmm1
	movzbl	%dil, %ecx
	pinsrb	$3, %ecx, %xmm1
	pmaxub	%xmm4, %xmm1
	movd	%xmm1, (%rdx,%r8,4)
	incq	%r8
	addq	$3, %rax
	cmpq	%r8, %rbx
	jne	.LBB432d7305_254
.LBB432d7305_255:
	movaps	160(%rsp), %xmm1
	movaps	176(%rsp), %xmm4
	movaps	192(%rsp), %xmm5
	movaps	208(%rsp), %xmm6
	movaps	%xmm6, 112(%rsp)
	movaps	%xmm5, 96(%rsp)
	movaps	%xmm4, 80(%rsp)
	movaps	%xmm1, 64(%rsp)
	imull	$171, %r11d, %eax
	shrl	$8, %eax
	addb	%al, %al
	andb	$-4, %al
	movzbl	%al, %esi
	movdqa	.LCPI432d7305_5(%rip), %xmm1
	pmaddubsw	%xmm1, %xmm3
	movdqa	.LCPI432d7305_6(%rip), %xmm4
	pmaddwd	%xmm4, %xmm3
	pmaddubsw	%xmm1, %xmm15
	pmaddwd	%xmm4, %xmm15
	pmaddubsw	%xmm1, %xmm2
	pmaddwd	%xmm4, %xmm2
	paddd	%xmm3, %xmm2
	pmaddubsw	%xmm1, %xmm0
	pmaddwd	%xmm4, %xmm0
	paddd	%xmm15, %xmm0
	paddd	%xmm2, %xmm0
	pshufd	$238, %xmm0, %xmm1
	paddd	%xmm0, %xmm1
	pshufd	$85, %xmm1, %xmm0
	paddd	%xmm1, %xmm0
	movd	%xmm0, %ebx
	leaq	64(%rsp), %rdi
	callq	hll_kernels.kernels.zeros_in
	addl	%eax, %r13d
	addl	%ebx, %r13d
	leaq	848(%rsp), %rbx
.LBB432d7305_256:
	pxor	%xmm0, %xmm0
	movdqa	%xmm0, 80(%rsp)
	movdqa	%xmm0, 64(%rsp)
	movdqu	542(%rsp), %xmm0
	movdqu	558(%rsp), %xmm1
	movdqa	%xmm0, 160(%rsp)
	movdqa	%xmm1, 176(%rsp)
	movl	%r13d, 192(%rsp)
	movl	$0, 196(%rsp)
	leaq	41(%r12), %rcx
	orl	$256, %r14d
	leaq	64(%rsp), %rdi
	leaq	160(%rsp), %rsi
	movl	%r14d, %edx
	callq	hll_registers.preamble.Preamble.start_image.309f015d8caa795c
	cmpb	$0, 64(%rsp)
	je	.LBB432d7305_260
	movb	$1, %r15b
	movzbl	65(%rsp), %r12d
.LBB432d7305_258:
	xorl	%ebp, %ebp
	xorl	%r9d, %r9d
	xorl	%r14d, %r14d
.LBB432d7305_259:
	movq	(%rsp), %r13
	testb	%r15b, %r15b
	jne	.LBB432d7305_346
	jmp	.LBB432d7305_347
.LBB432d7305_260:
	movdqu	72(%rsp), %xmm0
	movdqa	%xmm0, 384(%rsp)
	movq	88(%rsp), %r14
	movq	%r14, 400(%rsp)
	movq	392(%rsp), %rax
	movq	%r14, %rcx
	subq	%rax, %rcx
	cmpq	%rcx, %r12
	movq	(%rsp), %r13
	ja	.LBB432d7305_369
.LBB432d7305_261:
	leaq	(%rax,%r12), %r9
	movq	384(%rsp), %rbp
	leaq	(%rax,%rbp), %rdi
	movq	%rdi, %rcx
	subq	%r15, %rcx
	cmpq	%r12, %rcx
	jae	.LBB432d7305_268
	cmpq	$4, %r12
	jb	.LBB432d7305_263
	cmpq	$32, %rcx
	jae	.LBB432d7305_287
.LBB432d7305_263:
	xorl	%ecx, %ecx
.LBB432d7305_336:
	movq	%r12, %rsi
	movq	%rcx, %rdx
	andq	$3, %rsi
	je	.LBB432d7305_339
	movq	%rcx, %rdx
.LBB432d7305_338:
	movzbl	(%r15,%rdx), %r8d
	movb	%r8b, (%rdi,%rdx)
	incq	%rdx
	decq	%rsi
	jne	.LBB432d7305_338
.LBB432d7305_339:
	subq	%r12, %rcx
	cmpq	$-4, %rcx
	ja	.LBB432d7305_342
	addq	%rbp, %rax
	addq	$3, %rax
.LBB432d7305_341:
	movzbl	(%r15,%rdx), %ecx
	movb	%cl, -3(%rax,%rdx)
	movzbl	1(%r15,%rdx), %ecx
	movb	%cl, -2(%rax,%rdx)
	movzbl	2(%r15,%rdx), %ecx
	movb	%cl, -1(%rax,%rdx)
	movzbl	3(%r15,%rdx), %ecx
	movb	%cl, (%rax,%rdx)
	addq	$4, %rdx
	cmpq	%rdx, %r12
	jne	.LBB432d7305_341
	jmp	.LBB432d7305_342
.LBB432d7305_264:
	addq	%rdi, %r9
	leaq	(%r15,%r9), %rax
	addq	$32, %rax
	leaq	160(%rsp), %rcx
	.p2align	4
.LBB432d7305_265:
	movdqa	.LCPI432d7305_1(%rip), %xmm0
	movdqu	-32(%rax), %xmm1
	movdqu	-20(%rax), %xmm2
	movdqu	-8(%rax), %xmm4
	movdqu	(%rax), %xmm5
	pshufb	%xmm0, %xmm1
	pshufb	%xmm0, %xmm2
	pshufb	%xmm0, %xmm4
	pshufb	.LCPI432d7305_2(%rip), %xmm5
	movdqa	%xmm2, %xmm0
	psllw	$4, %xmm0
	pblendw	$170, %xmm2, %xmm0
	movdqa	%xmm1, %xmm3
	psllw	$4, %xmm3
	pblendw	$170, %xmm1, %xmm3
	movdqa	%xmm4, %xmm1
	psllw	$4, %xmm1
	pblendw	$170, %xmm4, %xmm1
	movdqa	%xmm5, %xmm2
	psllw	$4, %xmm2
	pblendw	$170, %xmm5, %xmm2
	movdqa	%xmm1, %xmm4
	psrlw	$4, %xmm4
	movdqa	%xmm3, %xmm6
	psrlw	$4, %xmm6
	movdqa	%xmm0, %xmm7
	psrlw	$4, %xmm7
	movdqa	%xmm2, %xmm5
	psrlw	$4, %xmm5
	movdqa	.LCPI432d7305_3(%rip), %xmm8
	pand	%xmm8, %xmm7
	pand	%xmm8, %xmm6
	pand	%xmm8, %xmm4
	pand	%xmm8, %xmm5
	psrlw	$2, %xmm1
	psrlw	$2, %xmm3
	psrlw	$2, %xmm0
	psrlw	$2, %xmm2
	movdqa	.LCPI432d7305_4(%rip), %xmm8
	pand	%xmm8, %xmm0
	por	%xmm7, %xmm0
	pand	%xmm8, %xmm3
	por	%xmm6, %xmm3
	pand	%xmm8, %xmm1
	por	%xmm4, %xmm1
	pand	%xmm8, %xmm2
	por	%xmm5, %xmm2
	movdqu	(%rcx), %xmm4
	pmaxub	%xmm3, %xmm4
	movdqu	16(%rcx), %xmm3
	pmaxub	%xmm0, %xmm3
	movdqu	32(%rcx), %xmm0
	pmaxub	%xmm1, %xmm0
	movdqu	48(%rcx), %xmm1
	pmaxub	%xmm2, %xmm1
	movdqu	%xmm0, 32(%rcx)
	movdqu	%xmm1, 48(%rcx)
	movdqu	%xmm4, (%rcx)
	movdqu	%xmm3, 16(%rcx)
	addq	$48, %rax
	addq	$64, %rcx
	jmp	.LBB432d7305_265
.LBB432d7305_266:
	movq	%r15, %rsi
	movq	%r12, %rdx
	movq	%r9, %r15
	callq	memmove@PLT
	movq	%r15, %r9
	jmp	.LBB432d7305_344
.LBB432d7305_267:
	movq	%r15, %rdx
	movb	%r12b, 16(%rsp)
	movq	%r9, %r12
	callq	memmove@PLT
	movq	%r12, %r9
	movzbl	16(%rsp), %r12d
.LBB432d7305_306:
	addq	%r15, %r9
	cmpb	$1, %r12b
	jne	.LBB432d7305_344
	movq	%r9, 16(%rsp)
	movq	888(%rsp), %rsi
	pxor	%xmm0, %xmm0
	movdqa	%xmm0, 80(%rsp)
	movdqa	%xmm0, 64(%rsp)
	addq	$8, %rsi
	leaq	64(%rsp), %rdi
	callq	hll_coupons.container.Container.ascending.9bc580afffac16c1
	cmpb	$0, 64(%rsp)
	je	.LBB432d7305_311
	movzbl	65(%rsp), %r12d
	testq	%r14, %r14
	je	.LBB432d7305_310
	movq	%rbp, %rdi
	callq	rattle_dealloc@PLT
.LBB432d7305_310:
	movb	$1, %r15b
	jmp	.LBB432d7305_224
.LBB432d7305_268:
	movq	%r15, %rsi
	movq	%r12, %rdx
	movq	%r9, %r15
	callq	memmove@PLT
	movq	%r15, %r9
.LBB432d7305_342:
	movq	%r9, 392(%rsp)
	movq	%r14, 400(%rsp)
	cmpq	%r9, %r14
	je	.LBB432d7305_371
.LBB432d7305_343:
	movb	$0, (%rbp,%r9)
	incq	%r9
.LBB432d7305_344:
	xorl	%r15d, %r15d
	xorl	%r12d, %r12d
	testb	%r15b, %r15b
	je	.LBB432d7305_347
.LBB432d7305_346:
	xorl	%eax, %eax
	cmpb	$12, %r12b
	sete	%dl
	movzbl	%r12b, %ecx
	cmovel	%eax, %ecx
	movl	%ecx, 32(%rsp)
	addb	%dl, %dl
	addb	$3, %dl
	movl	%edx, 16(%rsp)
	movzbl	840(%rsp), %eax
	movq	%rax, 688(%rsp)
	movups	(%rbx), %xmm0
	movdqu	16(%rbx), %xmm1
	movdqu	32(%rbx), %xmm2
	movdqu	48(%rbx), %xmm3
	movups	%xmm0, 696(%rsp)
	movdqu	%xmm1, 712(%rsp)
	movdqu	%xmm2, 728(%rsp)
	movdqu	%xmm3, 744(%rsp)
	movdqu	64(%rbx), %xmm0
	movdqu	%xmm0, 760(%rsp)
	leaq	688(%rsp), %rdi
	callq	hll_sketch.mode.Mode.drop.309f015d8caa795c
	movq	%r13, %r12
	xorl	%r14d, %r14d
	jmp	.LBB432d7305_131
.LBB432d7305_311:
	movq	72(%rsp), %r15
	movq	80(%rsp), %r12
	movq	88(%rsp), %rax
	movq	%rbp, 64(%rsp)
	movq	16(%rsp), %r9
	movq	%r9, 72(%rsp)
	movq	%r14, 80(%rsp)
	movb	$1, %r13b
	testq	%r12, %r12
	je	.LBB432d7305_319
	movq	%rax, 32(%rsp)
	xorl	%ebx, %ebx
	jmp	.LBB432d7305_314
.LBB432d7305_313:
	movl	%ebp, (%rcx,%r9)
	movq	%rcx, %rbp
	addq	$4, %r9
	movq	%r9, 72(%rsp)
	movq	%r14, 80(%rsp)
	incq	%rbx
	cmpq	%rbx, %r12
	je	.LBB432d7305_317
.LBB432d7305_314:
	movq	%rbp, %rcx
	movl	(%r15,%rbx,4), %ebp
	movq	%r14, %rax
	subq	%r9, %rax
	cmpq	$3, %rax
	ja	.LBB432d7305_313
	leaq	64(%rsp), %rdi
	movl	$4, %esi
	callq	std_alloc.vec.Vec.grow_amortized.e3d5df6901cfba47
	testb	%al, %al
	je	.LBB432d7305_386
	movq	64(%rsp), %rcx
	movq	72(%rsp), %r9
	movq	80(%rsp), %r14
	jmp	.LBB432d7305_313
.LBB432d7305_273:
	leaq	(%rsp,%r10), %rcx
	addq	$163, %rcx
	leaq	(%rdx,%rbx,4), %rsi
	decq	%rsi
	xorl	%r8d, %r8d
	cmpq	%rcx, %rsi
	jb	.LBB432d7305_253
	leaq	(%rsp,%r10), %rcx
	addq	$162, %rcx
	leaq	(%rdx,%rbx,4), %rsi
	addq	$-2, %rsi
	cmpq	%rcx, %rsi
	jb	.LBB432d7305_253
	leaq	(%rdx,%rbx,4), %rcx
	addq	$-4, %rcx
	cmpq	%rdx, %rcx
	jb	.LBB432d7305_253
	leaq	(%rsp,%r10), %rcx
	addq	$161, %rcx
	leaq	(%rdx,%rbx,4), %rsi
	addq	$-3, %rsi
	cmpq	%rcx, %rsi
	jb	.LBB432d7305_253
	leaq	-1(%rbx), %rcx
	shrq	$62, %rcx
	jne	.LBB432d7305_253
	movabsq	$9223372036854775792, %rcx
	cmpl	$48, %eax
	movq	%r15, 8(%rsp)
	movq	%r12, 56(%rsp)
	movq	%r9, 48(%rsp)
	movq	%r11, 488(%rsp)
	movq	%rbx, 480(%rsp)
	movq	%rdi, 472(%rsp)
	movq	%rbp, 464(%rsp)
	jae	.LBB432d7305_375
	xorl	%r8d, %r8d
.LBB432d7305_280:
	movq	%r8, %rax
	movabsq	$9223372036854775792, %r8
	addl	$8, %r8d
	andl	%ebx, %r8d
	leaq	(%r10,%rax,4), %rcx
	leaq	(%rsp,%rcx), %r10
	addq	$160, %r10
	leaq	(%rax,%rax,2), %rsi
	addq	%rdi, %rsi
	addq	%r9, %rsi
	addq	%rbp, %rsi
	leaq	(%r15,%rsi), %r11
	addq	$23, %r11
	movq	%r8, %rcx
	subq	%rax, %rcx
	movq	%rcx, 16(%rsp)
	xorl	%r9d, %r9d
.LBB432d7305_281:
	movzbl	-23(%r11), %eax
	movd	%eax, %xmm6
	pinsrb	$1, -20(%r11), %xmm6
	pinsrb	$2, -17(%r11), %xmm6
	pinsrb	$3, -14(%r11), %xmm6
	movzbl	-11(%r11), %eax
	movdqa	%xmm6, %xmm4
	pinsrb	$4, %eax, %xmm4
	movzbl	-8(%r11), %ecx
	pinsrb	$5, %ecx, %xmm4
	movzbl	-5(%r11), %edi
	pinsrb	$6, %edi, %xmm4
	movzbl	-2(%r11), %ebp
	pinsrb	$7, %ebp, %xmm4
	movzbl	-21(%r11), %esi
	movd	%esi, %xmm5
	pinsrb	$1, -18(%r11), %xmm5
	pinsrb	$2, -15(%r11), %xmm5
	pinsrb	$3, -12(%r11), %xmm5
	movzbl	-9(%r11), %r12d
	movdqa	%xmm5, %xmm1
	pinsrb	$4, %r12d, %xmm1
	movzbl	-6(%r11), %esi
	pinsrb	$5, %esi, %xmm1
	movzbl	-3(%r11), %ebx
	pinsrb	$6, %ebx, %xmm1
	pmovzxbd	%xmm6, %xmm7
	movzbl	(%r11), %r15d
	pinsrb	$7, %r15d, %xmm1
	pmovzxbd	%xmm5, %xmm5
	movd	%eax, %xmm10
	pinsrb	$4, %ecx, %xmm10
	pinsrb	$8, %edi, %xmm10
	pinsrb	$12, %ebp, %xmm10
	movzbl	-10(%r11), %eax
	movd	%eax, %xmm9
	pinsrb	$4, -7(%r11), %xmm9
	pinsrb	$8, -4(%r11), %xmm9
	pinsrb	$12, -1(%r11), %xmm9
	movzbl	-22(%r11), %eax
	movd	%eax, %xmm6
	pinsrb	$4, -19(%r11), %xmm6
	pinsrb	$8, -16(%r11), %xmm6
	pinsrb	$12, -13(%r11), %xmm6
	pslld	$8, %xmm6
	movd	%r12d, %xmm8
	pinsrb	$4, %esi, %xmm8
	pinsrb	$8, %ebx, %xmm8
	pinsrb	$12, %r15d, %xmm8
	pslld	$8, %xmm9
	pslld	$16, %xmm5
	pslld	$16, %xmm8
	por	%xmm9, %xmm8
	por	%xmm6, %xmm5
	por	%xmm10, %xmm9
	por	%xmm7, %xmm6
	movdqa	.LCPI432d7305_9(%rip), %xmm7
	pand	%xmm7, %xmm4
	psrld	$6, %xmm6
	psrld	$6, %xmm9
	movdqa	.LCPI432d7305_7(%rip), %xmm10
	pand	%xmm10, %xmm9
	pand	%xmm10, %xmm6
	packusdw	%xmm9, %xmm6
	pxor	%xmm9, %xmm9
	packuswb	%xmm9, %xmm6
	pand	%xmm7, %xmm6
	psrld	$12, %xmm5
	psrld	$12, %xmm8
	pand	%xmm10, %xmm8
	pand	%xmm10, %xmm5
	packusdw	%xmm8, %xmm5
	packuswb	%xmm9, %xmm5
	pand	%xmm7, %xmm5
	psrlw	$2, %xmm1
	pand	.LCPI432d7305_8(%rip), %xmm1
	movzbl	(%r10,%r9,4), %eax
	movd	%eax, %xmm7
	pinsrb	$1, 4(%r10,%r9,4), %xmm7
	pinsrb	$2, 8(%r10,%r9,4), %xmm7
	pinsrb	$3, 12(%r10,%r9,4), %xmm7
	pinsrb	$4, 16(%r10,%r9,4), %xmm7
	pinsrb	$5, 20(%r10,%r9,4), %xmm7
	pinsrb	$6, 24(%r10,%r9,4), %xmm7
	pinsrb	$7, 28(%r10,%r9,4), %xmm7
	movzbl	1(%r10,%r9,4), %eax
	movd	%eax, %xmm8
	pinsrb	$1, 5(%r10,%r9,4), %xmm8
	pinsrb	$2, 9(%r10,%r9,4), %xmm8
	pinsrb	$3, 13(%r10,%r9,4), %xmm8
	pinsrb	$4, 17(%r10,%r9,4), %xmm8
	pinsrb	$5, 21(%r10,%r9,4), %xmm8
	pinsrb	$6, 25(%r10,%r9,4), %xmm8
	pinsrb	$7, 29(%r10,%r9,4), %xmm8
	pmaxub	%xmm4, %xmm7
	pmaxub	%xmm6, %xmm8
	movzbl	2(%r10,%r9,4), %eax
	movd	%eax, %xmm4
	pinsrb	$1, 6(%r10,%r9,4), %xmm4
	pinsrb	$2, 10(%r10,%r9,4), %xmm4
	pinsrb	$3, 14(%r10,%r9,4), %xmm4
	pinsrb	$4, 18(%r10,%r9,4), %xmm4
	pinsrb	$5, 22(%r10,%r9,4), %xmm4
	pinsrb	$6, 26(%r10,%r9,4), %xmm4
	pinsrb	$7, 30(%r10,%r9,4), %xmm4
	movzbl	3(%r10,%r9,4), %eax
	movd	%eax, %xmm6
	pinsrb	$1, 7(%r10,%r9,4), %xmm6
	pinsrb	$2, 11(%r10,%r9,4), %xmm6
	pinsrb	$3, 15(%r10,%r9,4), %xmm6
	pinsrb	$4, 19(%r10,%r9,4), %xmm6
	pinsrb	$5, 23(%r10,%r9,4), %xmm6
	pinsrb	$6, 27(%r10,%r9,4), %xmm6
	pmaxub	%xmm5, %xmm4
	pinsrb	$7, 31(%r10,%r9,4), %xmm6
	pmaxub	%xmm1, %xmm6
	movdqa	%xmm7, %xmm1
	punpcklqdq	%xmm8, %xmm1
	movdqa	%xmm4, %xmm5
	punpcklqdq	%xmm6, %xmm5
	movq	.LCPI432d7305_14(%rip), %xmm9
	pshufb	%xmm9, %xmm1
	pshufb	%xmm9, %xmm5
	punpcklwd	%xmm5, %xmm1
	punpcklbw	%xmm8, %xmm7
	punpcklbw	%xmm6, %xmm4
	punpcklwd	%xmm4, %xmm7
	movdqu	%xmm7, (%r10,%r9,4)
	movdqu	%xmm1, 16(%r10,%r9,4)
	addq	$8, %r9
	addq	$24, %r11
	cmpq	%r9, 16(%rsp)
	jne	.LBB432d7305_281
	movq	480(%rsp), %rbx
	cmpl	%r8d, %ebx
	movq	8(%rsp), %r15
	movq	56(%rsp), %r12
	movq	48(%rsp), %r9
	movq	488(%rsp), %r11
	movq	472(%rsp), %rdi
	movq	464(%rsp), %rbp
	jne	.LBB432d7305_253
	jmp	.LBB432d7305_255
.LBB432d7305_283:
	cmpq	$32, %r12
	jae	.LBB432d7305_289
	xorl	%ecx, %ecx
	jmp	.LBB432d7305_380
.LBB432d7305_285:
	cmpq	$32, %r15
	jae	.LBB432d7305_293
	xorl	%eax, %eax
	jmp	.LBB432d7305_297
.LBB432d7305_317:
	movq	64(%rsp), %rbp
	xorl	%r12d, %r12d
.LBB432d7305_318:
	leaq	848(%rsp), %rbx
	movq	32(%rsp), %rax
	jmp	.LBB432d7305_320
.LBB432d7305_287:
	cmpq	$32, %r12
	jae	.LBB432d7305_329
	xorl	%ecx, %ecx
	jmp	.LBB432d7305_333
.LBB432d7305_319:
	xorl	%r12d, %r12d
.LBB432d7305_320:
	testq	%rax, %rax
	je	.LBB432d7305_322
	movq	%r15, %rdi
	movq	%r9, %r15
	callq	rattle_dealloc@PLT
	movq	%r15, %r9
.LBB432d7305_322:
	testb	%r13b, %r13b
	je	.LBB432d7305_324
	xorl	%r15d, %r15d
	xorl	%r12d, %r12d
	jmp	.LBB432d7305_259
.LBB432d7305_324:
	movb	$1, %r15b
	jmp	.LBB432d7305_258
.LBB432d7305_289:
	movq	%r12, %rcx
	andq	$-32, %rcx
	movq	%rbp, %r8
	leaq	(%rax,%rbp), %rdx
	addq	$16, %rdx
	xorl	%esi, %esi
.LBB432d7305_290:
	movdqu	(%r15,%rsi), %xmm0
	movdqu	16(%r15,%rsi), %xmm1
	movdqu	%xmm0, -16(%rdx,%rsi)
	movdqu	%xmm1, (%rdx,%rsi)
	addq	$32, %rsi
	cmpq	%rsi, %rcx
	jne	.LBB432d7305_290
	cmpq	%rcx, %r12
	jne	.LBB432d7305_379
	xorl	%r15d, %r15d
	xorl	%r12d, %r12d
	movq	(%rsp), %r13
	movq	%r8, %rbp
	testb	%r15b, %r15b
	jne	.LBB432d7305_346
.LBB432d7305_347:
	movzbl	840(%rsp), %eax
	movq	%rax, 592(%rsp)
	movups	(%rbx), %xmm0
	movdqu	16(%rbx), %xmm1
	movdqu	32(%rbx), %xmm2
	movdqu	48(%rbx), %xmm3
	movups	%xmm0, 600(%rsp)
	movdqu	%xmm1, 616(%rsp)
	movdqu	%xmm2, 632(%rsp)
	movdqu	%xmm3, 648(%rsp)
	movdqu	64(%rbx), %xmm0
	movdqu	%xmm0, 664(%rsp)
	leaq	592(%rsp), %rdi
	movq	%r9, 16(%rsp)
	callq	hll_sketch.mode.Mode.drop.309f015d8caa795c
	leaq	832(%rsp), %rdi
	movl	$32768, %edx
	xorl	%esi, %esi
	callq	memset@PLT
	movq	16(%rsp), %rax
	testq	%rax, %rax
	movq	%rbp, 32(%rsp)
	je	.LBB432d7305_360
	leaq	1(%rbp), %rcx
	movq	%rcx, 8(%rsp)
	xorl	%r12d, %r12d
.LBB432d7305_349:
	subq	%r12, %rax
	cmpq	$16384, %rax
	movl	$16384, %r13d
	cmovbq	%rax, %r13
	cmpq	$1, %rax
	jne	.LBB432d7305_351
	xorl	%eax, %eax
	jmp	.LBB432d7305_354
.LBB432d7305_351:
	movl	%r13d, %ecx
	andl	$32766, %ecx
	movq	8(%rsp), %rax
	leaq	(%rax,%r12), %rdx
	xorl	%eax, %eax
.LBB432d7305_352:
	movzbl	-1(%rdx,%rax), %esi
	movl	%esi, %edi
	shrl	$4, %edi
	leaq	.Lstatic.10(%rip), %r8
	movzbl	(%rdi,%r8), %edi
	movb	%dil, 832(%rsp,%rax,2)
	andl	$15, %esi
	movzbl	(%rsi,%r8), %esi
	movb	%sil, 833(%rsp,%rax,2)
	movzbl	(%rdx,%rax), %esi
	movl	%esi, %edi
	shrl	$4, %edi
	movzbl	(%rdi,%r8), %edi
	movb	%dil, 834(%rsp,%rax,2)
	andl	$15, %esi
	movzbl	(%rsi,%r8), %esi
	movb	%sil, 835(%rsp,%rax,2)
	addq	$2, %rax
	cmpq	%rax, %rcx
	jne	.LBB432d7305_352
	testb	$1, %r13b
	je	.LBB432d7305_355
.LBB432d7305_354:
	leaq	(%r12,%rbp), %rcx
	movzbl	(%rcx,%rax), %ecx
	movl	%ecx, %edx
	shrl	$4, %edx
	leaq	.Lstatic.10(%rip), %rsi
	movzbl	(%rdx,%rsi), %edx
	movb	%dl, 832(%rsp,%rax,2)
	andl	$15, %ecx
	movzbl	(%rcx,%rsi), %ecx
	movb	%cl, 833(%rsp,%rax,2)
.LBB432d7305_355:
	leaq	(,%r13,2), %r15
	xorl	%ebp, %ebp
.LBB432d7305_356:
	leaq	(%rsp,%rbp), %rsi
	addq	$832, %rsi
	movq	%r15, %rbx
	subq	%rbp, %rbx
	movl	$1, %edi
	movq	%rbx, %rdx
	callq	write@PLT
	testq	%rax, %rax
	js	.LBB432d7305_365
	cmpq	%rbx, %rax
	cmovbq	%rax, %rbx
	testq	%rbx, %rbx
	je	.LBB432d7305_366
	addq	%rbx, %rbp
	cmpq	%r15, %rbp
	jb	.LBB432d7305_356
	addq	%r13, %r12
	movq	16(%rsp), %rax
	cmpq	%rax, %r12
	movq	32(%rsp), %rbp
	jb	.LBB432d7305_349
.LBB432d7305_360:
	leaq	.Lstatic.9(%rip), %rsi
	movl	$1, %edx
	movl	$1, %edi
	callq	write@PLT
	testq	%rax, %rax
	js	.LBB432d7305_365
	je	.LBB432d7305_366
	testq	%r14, %r14
	je	.LBB432d7305_364
	movq	32(%rsp), %rdi
	callq	rattle_dealloc@PLT
.LBB432d7305_364:
	xorl	%eax, %eax
	jmp	.LBB432d7305_206
.LBB432d7305_365:
	leaq	160(%rsp), %rdi
	callq	std_io.io.error.last_error
.LBB432d7305_366:
	movb	$7, %al
	movl	%eax, 16(%rsp)
	testq	%r14, %r14
	je	.LBB432d7305_368
	movq	32(%rsp), %rdi
	callq	rattle_dealloc@PLT
.LBB432d7305_368:
	movl	$0, 32(%rsp)
	movq	(%rsp), %r12
	xorl	%r14d, %r14d
	jmp	.LBB432d7305_131
.LBB432d7305_293:
	movq	%r15, %rax
	andq	$-32, %rax
	leaq	(%r9,%rbp), %rcx
	addq	$16, %rcx
	xorl	%edx, %edx
.LBB432d7305_294:
	movdqu	(%rsi,%rdx), %xmm0
	movdqu	16(%rsi,%rdx), %xmm1
	movdqu	%xmm0, -16(%rcx,%rdx)
	movdqu	%xmm1, (%rcx,%rdx)
	addq	$32, %rdx
	cmpq	%rdx, %rax
	jne	.LBB432d7305_294
	cmpq	%rax, %r15
	je	.LBB432d7305_306
	testb	$28, %r15b
	je	.LBB432d7305_300
.LBB432d7305_297:
	movq	%rax, %rcx
	movq	%r15, %rax
	andq	$-4, %rax
.LBB432d7305_298:
	movl	(%rsi,%rcx), %edx
	movl	%edx, (%rdi,%rcx)
	addq	$4, %rcx
	cmpq	%rcx, %rax
	jne	.LBB432d7305_298
	cmpq	%rax, %r15
	je	.LBB432d7305_306
	jmp	.LBB432d7305_300
.LBB432d7305_325:
	leaq	384(%rsp), %rdi
	movq	%r12, %rsi
	callq	std_alloc.vec.Vec.grow_amortized.e3d5df6901cfba47
	testb	%al, %al
	je	.LBB432d7305_373
	movq	392(%rsp), %rax
	movq	400(%rsp), %r14
	movq	(%rsp), %r13
	jmp	.LBB432d7305_233
.LBB432d7305_327:
	movq	%rbx, %rbp
	movq	%rsi, %rbx
	leaq	256(%rsp), %rdi
	movq	%r15, %rsi
	callq	std_alloc.vec.Vec.grow_amortized.e3d5df6901cfba47
	testb	%al, %al
	je	.LBB432d7305_383
	movq	264(%rsp), %r9
	movq	272(%rsp), %r14
	movq	%rbx, %rsi
	movq	(%rsp), %r13
	movq	%rbp, %rbx
	jmp	.LBB432d7305_244
.LBB432d7305_329:
	movq	%r9, %r10
	movq	%r12, %r8
	movq	%r12, %rcx
	andq	$-32, %rcx
	movq	%rbp, %r9
	leaq	(%rax,%rbp), %rdx
	addq	$16, %rdx
	xorl	%esi, %esi
.LBB432d7305_330:
	movdqu	(%r15,%rsi), %xmm0
	movdqu	16(%r15,%rsi), %xmm1
	movdqu	%xmm0, -16(%rdx,%rsi)
	movdqu	%xmm1, (%rdx,%rsi)
	addq	$32, %rsi
	cmpq	%rsi, %rcx
	jne	.LBB432d7305_330
	cmpq	%rcx, %r8
	movq	(%rsp), %r13
	movq	%r9, %rbp
	movq	%r10, %r9
	je	.LBB432d7305_342
	movq	%r8, %r12
	testb	$28, %r12b
	je	.LBB432d7305_336
.LBB432d7305_333:
	movq	%rcx, %rdx
	movq	%r12, %rcx
	andq	$-4, %rcx
.LBB432d7305_334:
	movl	(%r15,%rdx), %esi
	movl	%esi, (%rdi,%rdx)
	addq	$4, %rdx
	cmpq	%rdx, %rcx
	jne	.LBB432d7305_334
	cmpq	%rcx, %r12
	je	.LBB432d7305_342
	jmp	.LBB432d7305_336
.LBB432d7305_369:
	leaq	384(%rsp), %rdi
	movq	%r12, %r14
	movq	%r12, %rsi
	callq	std_alloc.vec.Vec.grow_amortized.e3d5df6901cfba47
	testb	%al, %al
	je	.LBB432d7305_373
	movq	392(%rsp), %rax
	movq	400(%rsp), %rcx
	movq	(%rsp), %r13
	movq	%r14, %r12
	movq	%rcx, %r14
	jmp	.LBB432d7305_261
.LBB432d7305_371:
	leaq	384(%rsp), %rdi
	movl	$1, %esi
	callq	std_alloc.vec.Vec.grow_amortized.e3d5df6901cfba47
	testb	%al, %al
	je	.LBB432d7305_373
	movq	384(%rsp), %rbp
	movq	392(%rsp), %r9
	movq	400(%rsp), %r14
	movq	(%rsp), %r13
	jmp	.LBB432d7305_343
.LBB432d7305_373:
	movb	$12, %r12b
	movb	$1, %r15b
	cmpq	$0, 400(%rsp)
	je	.LBB432d7305_258
	movq	384(%rsp), %rdi
	callq	rattle_dealloc@PLT
	jmp	.LBB432d7305_258
.LBB432d7305_375:
	movdqa	%xmm2, 784(%rsp)
	movdqa	%xmm3, 800(%rsp)
	movdqa	%xmm15, 816(%rsp)
	movl	%ebx, %r8d
	andl	%ecx, %r8d
	leaq	(%r9,%rbp), %rax
	addq	%rdi, %rax
	leaq	(%r15,%rax), %rbp
	addq	$47, %rbp
	xorl	%r11d, %r11d
.LBB432d7305_376:
	movzbl	-47(%rbp), %eax
	movd	%eax, %xmm6
	movzbl	-35(%rbp), %eax
	movzbl	-32(%rbp), %ecx
	pinsrb	$1, -44(%rbp), %xmm6
	movzbl	-45(%rbp), %esi
	movd	%esi, %xmm15
	pinsrb	$2, -41(%rbp), %xmm6
	pinsrb	$1, -42(%rbp), %xmm15
	pinsrb	$3, -38(%rbp), %xmm6
	movdqa	%xmm6, 32(%rsp)
	movzbl	-29(%rbp), %esi
	pinsrb	$2, -39(%rbp), %xmm15
	pinsrb	$3, -36(%rbp), %xmm15
	pinsrb	$4, %eax, %xmm6
	movzbl	-33(%rbp), %r9d
	movdqa	%xmm15, %xmm5
	pinsrb	$4, %r9d, %xmm5
	movzbl	-26(%rbp), %ebx
	movzbl	-30(%rbp), %edi
	pinsrb	$5, %ecx, %xmm6
	movd	%eax, %xmm1
	movzbl	-27(%rbp), %eax
	pinsrb	$5, %edi, %xmm5
	pinsrb	$4, %ecx, %xmm1
	pinsrb	$6, %esi, %xmm6
	pinsrb	$8, %esi, %xmm1
	pinsrb	$6, %eax, %xmm5
	movzbl	-23(%rbp), %esi
	movzbl	-24(%rbp), %ecx
	pinsrb	$7, %ebx, %xmm6
	pinsrb	$12, %ebx, %xmm1
	movdqa	%xmm1, 16(%rsp)
	pinsrb	$7, %ecx, %xmm5
	movzbl	-20(%rbp), %ebx
	movd	%esi, %xmm10
	pinsrb	$8, %esi, %xmm6
	pinsrb	$4, %ebx, %xmm10
	pinsrb	$9, %ebx, %xmm6
	movzbl	-17(%rbp), %r12d
	movzbl	-21(%rbp), %esi
	pinsrb	$8, %esi, %xmm5
	movd	%esi, %xmm1
	movzbl	-18(%rbp), %esi
	pinsrb	$9, %esi, %xmm5
	pinsrb	$8, %r12d, %xmm10
	pinsrb	$10, %r12d, %xmm6
	movzbl	-14(%rbp), %ebx
	pinsrb	$4, %esi, %xmm1
	movzbl	-10(%rbp), %esi
	movd	%esi, %xmm12
	movzbl	-15(%rbp), %esi
	pinsrb	$10, %esi, %xmm5
	pinsrb	$12, %ebx, %xmm10
	pinsrb	$11, %ebx, %xmm6
	movzbl	-11(%rbp), %ebx
	movd	%ebx, %xmm7
	pinsrb	$12, %ebx, %xmm6
	movzbl	-34(%rbp), %ebx
	pinsrb	$8, %esi, %xmm1
	movzbl	-22(%rbp), %esi
	movd	%esi, %xmm11
	movzbl	-12(%rbp), %esi
	pinsrb	$11, %esi, %xmm5
	movd	%ebx, %xmm13
	movzbl	-9(%rbp), %ebx
	pinsrb	$12, %ebx, %xmm5
	movd	%ebx, %xmm2
	pinsrb	$12, %esi, %xmm1
	movdqa	%xmm1, %xmm14
	movzbl	-8(%rbp), %esi
	pinsrb	$4, %esi, %xmm7
	pinsrb	$13, %esi, %xmm6
	movd	%r9d, %xmm3
	pinsrb	$4, %edi, %xmm3
	movzbl	-6(%rbp), %esi
	pinsrb	$4, %esi, %xmm2
	pinsrb	$13, %esi, %xmm5
	movzbl	-5(%rbp), %esi
	pinsrb	$8, %eax, %xmm3
	movzbl	-2(%rbp), %r9d
	pinsrb	$8, %esi, %xmm7
	pinsrb	$14, %esi, %xmm6
	movzbl	-46(%rbp), %eax
	pinsrb	$12, %ecx, %xmm3
	movzbl	-3(%rbp), %edi
	movd	%eax, %xmm9
	movzbl	(%rdx,%r11,4), %eax
	movd	%eax, %xmm1
	movzbl	1(%rdx,%r11,4), %eax
	movd	%eax, %xmm8
	movzbl	(%rbp), %eax
	pinsrb	$4, -7(%rbp), %xmm12
	pinsrb	$8, -4(%rbp), %xmm12
	pinsrb	$12, -1(%rbp), %xmm12
	pinsrb	$8, %edi, %xmm2
	pinsrb	$12, %r9d, %xmm7
	pinsrb	$12, %eax, %xmm2
	pslld	$16, %xmm2
	pslld	$8, %xmm12
	por	%xmm12, %xmm2
	por	%xmm7, %xmm12
	pinsrb	$14, %edi, %xmm5
	movzbl	3(%rdx,%r11,4), %ecx
	movd	%ecx, %xmm7
	pinsrb	$15, %r9d, %xmm6
	pinsrb	$4, -19(%rbp), %xmm11
	pinsrb	$8, -16(%rbp), %xmm11
	pinsrb	$12, -13(%rbp), %xmm11
	movdqa	%xmm14, %xmm4
	pslld	$16, %xmm4
	pslld	$8, %xmm11
	por	%xmm11, %xmm4
	por	%xmm10, %xmm11
	pinsrb	$15, %eax, %xmm5
	movzbl	2(%rdx,%r11,4), %eax
	movd	%eax, %xmm14
	pinsrb	$4, -31(%rbp), %xmm13
	pinsrb	$4, -43(%rbp), %xmm9
	pinsrb	$8, -28(%rbp), %xmm13
	pinsrb	$8, -40(%rbp), %xmm9
	pinsrb	$12, -25(%rbp), %xmm13
	pinsrb	$1, 4(%rdx,%r11,4), %xmm1
	pinsrb	$12, -37(%rbp), %xmm9
	pmovzxbd	32(%rsp), %xmm10
	pinsrb	$2, 8(%rdx,%r11,4), %xmm1
	pmovzxbd	%xmm15, %xmm15
	pslld	$16, %xmm3
	pinsrb	$3, 12(%rdx,%r11,4), %xmm1
	pslld	$8, %xmm13
	por	%xmm13, %xmm3
	pinsrb	$4, 16(%rdx,%r11,4), %xmm1
	por	16(%rsp), %xmm13
	pslld	$8, %xmm9
	pinsrb	$5, 20(%rdx,%r11,4), %xmm1
	pslld	$16, %xmm15
	por	%xmm9, %xmm15
	pinsrb	$6, 24(%rdx,%r11,4), %xmm1
	por	%xmm10, %xmm9
	psrld	$6, %xmm13
	pinsrb	$7, 28(%rdx,%r11,4), %xmm1
	psrld	$6, %xmm11
	psrld	$6, %xmm12
	pinsrb	$1, 5(%rdx,%r11,4), %xmm8
	psrld	$6, %xmm9
	movdqa	.LCPI432d7305_7(%rip), %xmm10
	pinsrb	$2, 9(%rdx,%r11,4), %xmm8
	pand	%xmm10, %xmm12
	psrld	$12, %xmm3
	pinsrb	$3, 13(%rdx,%r11,4), %xmm8
	pand	%xmm10, %xmm11
	psrld	$12, %xmm4
	pinsrb	$4, 17(%rdx,%r11,4), %xmm8
	pand	%xmm10, %xmm13
	psrld	$12, %xmm2
	pinsrb	$5, 21(%rdx,%r11,4), %xmm8
	psrld	$12, %xmm15
	pinsrb	$6, 25(%rdx,%r11,4), %xmm8
	pinsrb	$8, 32(%rdx,%r11,4), %xmm1
	pand	%xmm10, %xmm2
	pinsrb	$7, 29(%rdx,%r11,4), %xmm8
	packusdw	%xmm12, %xmm11
	pand	%xmm10, %xmm4
	pinsrb	$8, 33(%rdx,%r11,4), %xmm8
	pand	%xmm10, %xmm9
	pand	%xmm10, %xmm3
	pinsrb	$1, 7(%rdx,%r11,4), %xmm7
	packusdw	%xmm2, %xmm4
	pand	%xmm10, %xmm15
	pinsrb	$2, 11(%rdx,%r11,4), %xmm7
	packusdw	%xmm13, %xmm9
	pinsrb	$3, 15(%rdx,%r11,4), %xmm7
	pinsrb	$9, 36(%rdx,%r11,4), %xmm1
	pinsrb	$4, 19(%rdx,%r11,4), %xmm7
	pinsrb	$9, 37(%rdx,%r11,4), %xmm8
	packusdw	%xmm3, %xmm15
	pinsrb	$5, 23(%rdx,%r11,4), %xmm7
	packuswb	%xmm11, %xmm9
	movdqa	.LCPI432d7305_8(%rip), %xmm10
	pinsrb	$6, 27(%rdx,%r11,4), %xmm7
	packuswb	%xmm4, %xmm15
	pinsrb	$7, 31(%rdx,%r11,4), %xmm7
	pinsrb	$10, 40(%rdx,%r11,4), %xmm1
	pinsrb	$8, 35(%rdx,%r11,4), %xmm7
	pinsrb	$10, 41(%rdx,%r11,4), %xmm8
	pinsrb	$9, 39(%rdx,%r11,4), %xmm7
	pinsrb	$11, 44(%rdx,%r11,4), %xmm1
	pinsrb	$10, 43(%rdx,%r11,4), %xmm7
	pinsrb	$11, 45(%rdx,%r11,4), %xmm8
	pinsrb	$11, 47(%rdx,%r11,4), %xmm7
	pinsrb	$12, 48(%rdx,%r11,4), %xmm1
	pinsrb	$1, 6(%rdx,%r11,4), %xmm14
	pinsrb	$12, 49(%rdx,%r11,4), %xmm8
	pinsrb	$2, 10(%rdx,%r11,4), %xmm14
	pinsrb	$12, 51(%rdx,%r11,4), %xmm7
	pinsrb	$3, 14(%rdx,%r11,4), %xmm14
	pinsrb	$13, 52(%rdx,%r11,4), %xmm1
	pinsrb	$4, 18(%rdx,%r11,4), %xmm14
	pinsrb	$13, 53(%rdx,%r11,4), %xmm8
	pinsrb	$5, 22(%rdx,%r11,4), %xmm14
	pinsrb	$13, 55(%rdx,%r11,4), %xmm7
	pinsrb	$6, 26(%rdx,%r11,4), %xmm14
	pinsrb	$14, 56(%rdx,%r11,4), %xmm1
	pinsrb	$7, 30(%rdx,%r11,4), %xmm14
	pinsrb	$14, 57(%rdx,%r11,4), %xmm8
	pinsrb	$8, 34(%rdx,%r11,4), %xmm14
	pinsrb	$14, 59(%rdx,%r11,4), %xmm7
	pinsrb	$9, 38(%rdx,%r11,4), %xmm14
	pinsrb	$15, 60(%rdx,%r11,4), %xmm1
	pinsrb	$10, 42(%rdx,%r11,4), %xmm14
	pinsrb	$15, 61(%rdx,%r11,4), %xmm8
	pinsrb	$11, 46(%rdx,%r11,4), %xmm14
	pinsrb	$15, 63(%rdx,%r11,4), %xmm7
	pand	%xmm10, %xmm15
	pinsrb	$12, 50(%rdx,%r11,4), %xmm14
	psrlw	$2, %xmm5
	pand	%xmm10, %xmm9
	pinsrb	$13, 54(%rdx,%r11,4), %xmm14
	pand	%xmm10, %xmm5
	pand	%xmm10, %xmm6
	pinsrb	$14, 58(%rdx,%r11,4), %xmm14
	pmaxub	%xmm6, %xmm1
	pmaxub	%xmm9, %xmm8
	pinsrb	$15, 62(%rdx,%r11,4), %xmm14
	pmaxub	%xmm5, %xmm7
	pmaxub	%xmm15, %xmm14
	movdqa	%xmm1, %xmm4
	movdqa	%xmm14, %xmm5
	punpcklbw	%xmm8, %xmm4
	punpcklbw	%xmm7, %xmm5
	movdqa	%xmm4, %xmm6
	punpckhbw	%xmm8, %xmm1
	punpckhwd	%xmm5, %xmm4
	punpckhbw	%xmm7, %xmm14
	movdqa	%xmm1, %xmm7
	punpcklwd	%xmm14, %xmm7
	punpcklwd	%xmm5, %xmm6
	punpckhwd	%xmm14, %xmm1
	movdqu	%xmm1, 48(%rdx,%r11,4)
	movdqu	%xmm7, 32(%rdx,%r11,4)
	movdqu	%xmm4, 16(%rdx,%r11,4)
	movdqu	%xmm6, (%rdx,%r11,4)
	addq	$16, %r11
	addq	$48, %rbp
	cmpq	%r11, %r8
	jne	.LBB432d7305_376
	movq	480(%rsp), %rbx
	cmpl	%r8d, %ebx
	movq	8(%rsp), %r15
	movq	56(%rsp), %r12
	movq	48(%rsp), %r9
	movdqa	816(%rsp), %xmm15
	movq	488(%rsp), %r11
	movq	472(%rsp), %rdi
	movq	464(%rsp), %rbp
	movdqa	800(%rsp), %xmm3
	movdqa	784(%rsp), %xmm2
	je	.LBB432d7305_255
	testb	$8, %bl
	je	.LBB432d7305_253
	jmp	.LBB432d7305_280
.LBB432d7305_379:
	testb	$28, %r12b
	movq	(%rsp), %r13
	movq	%r8, %rbp
	je	.LBB432d7305_237
.LBB432d7305_380:
	movq	%rcx, %rdx
	movq	%r12, %rcx
	andq	$-4, %rcx
.LBB432d7305_381:
	movl	(%r15,%rdx), %esi
	movl	%esi, (%rdi,%rdx)
	addq	$4, %rdx
	cmpq	%rdx, %rcx
	jne	.LBB432d7305_381
	cmpq	%rcx, %r12
	jne	.LBB432d7305_237
	jmp	.LBB432d7305_344
.LBB432d7305_383:
	movb	$12, %r12b
	cmpq	$0, 272(%rsp)
	je	.LBB432d7305_385
	movq	256(%rsp), %rdi
	callq	rattle_dealloc@PLT
.LBB432d7305_385:
	movq	(%rsp), %r13
	movq	%rbp, %rbx
	jmp	.LBB432d7305_310
.LBB432d7305_386:
	movb	$12, %r12b
	cmpq	$0, 80(%rsp)
	je	.LBB432d7305_388
	movq	64(%rsp), %rdi
	callq	rattle_dealloc@PLT
.LBB432d7305_388:
	xorl	%ebp, %ebp
	xorl	%r9d, %r9d
	xorl	%r14d, %r14d
	xorl	%r13d, %r13d
	jmp	.LBB432d7305_318
.Lfunc_end432d7305:
	.size	hll_program.main.start, .Lfunc_end432d7305-hll_program.main.start
	.section	.rodata.hll_program.main.start,"a",@progbits
	.p2align	2, 0x0
.LJTI432d7305_0:
	.long	.LBB432d7305_157-.LJTI432d7305_0
	.long	.LBB432d7305_213-.LJTI432d7305_0
	.long	.LBB432d7305_209-.LJTI432d7305_0
	.long	.LBB432d7305_211-.LJTI432d7305_0
	.long	.LBB432d7305_207-.LJTI432d7305_0
.LJTI432d7305_1:
	.long	.LBB432d7305_143-.LJTI432d7305_1
	.long	.LBB432d7305_187-.LJTI432d7305_1
	.long	.LBB432d7305_171-.LJTI432d7305_1
	.long	.LBB432d7305_175-.LJTI432d7305_1
	.long	.LBB432d7305_167-.LJTI432d7305_1
	.long	.LBB432d7305_191-.LJTI432d7305_1
	.long	.LBB432d7305_195-.LJTI432d7305_1
	.long	.LBB432d7305_183-.LJTI432d7305_1
	.long	.LBB432d7305_199-.LJTI432d7305_1

	.section	.text.std_io.io.error.last_error,"ax",@progbits
	.p2align	4
	.type	std_io.io.error.last_error,@function
std_io.io.error.last_error:
	pushq	%rbx
	movq	%rdi, %rbx
	callq	rattle_errno@PLT
	movl	%eax, %ecx
	movb	$41, %dl
	testl	%eax, %eax
	js	.LBBbca4a5a3_40
	decl	%eax
	cmpl	$121, %eax
	ja	.LBBbca4a5a3_40
	leaq	.LJTIbca4a5a3_0(%rip), %rsi
	movslq	(%rsi,%rax,4), %rax
	addq	%rsi, %rax
	jmpq	*%rax
.LBBbca4a5a3_3:
	movb	$1, %dl
	jmp	.LBBbca4a5a3_40
.LBBbca4a5a3_24:
	movb	$36, %dl
	jmp	.LBBbca4a5a3_40
.LBBbca4a5a3_36:
	movb	$4, %dl
	jmp	.LBBbca4a5a3_40
.LBBbca4a5a3_33:
	movb	$7, %dl
	jmp	.LBBbca4a5a3_40
.LBBbca4a5a3_39:
	movb	$26, %dl
	jmp	.LBBbca4a5a3_40
.LBBbca4a5a3_37:
	movb	$39, %dl
	jmp	.LBBbca4a5a3_40
.LBBbca4a5a3_28:
	movb	$9, %dl
	jmp	.LBBbca4a5a3_40
.LBBbca4a5a3_27:
	movb	$8, %dl
	jmp	.LBBbca4a5a3_40
.LBBbca4a5a3_22:
	movb	$30, %dl
	jmp	.LBBbca4a5a3_40
.LBBbca4a5a3_18:
	movb	$25, %dl
	jmp	.LBBbca4a5a3_40
.LBBbca4a5a3_20:
	movb	$32, %dl
	jmp	.LBBbca4a5a3_40
.LBBbca4a5a3_23:
	movb	$33, %dl
	jmp	.LBBbca4a5a3_40
.LBBbca4a5a3_34:
	movb	$22, %dl
	jmp	.LBBbca4a5a3_40
.LBBbca4a5a3_11:
	movb	$31, %dl
	jmp	.LBBbca4a5a3_40
.LBBbca4a5a3_15:
	movb	$29, %dl
	jmp	.LBBbca4a5a3_40
.LBBbca4a5a3_26:
	movb	$18, %dl
	jmp	.LBBbca4a5a3_40
.LBBbca4a5a3_29:
	movb	$10, %dl
	jmp	.LBBbca4a5a3_40
.LBBbca4a5a3_9:
	movb	$28, %dl
	jmp	.LBBbca4a5a3_40
.LBBbca4a5a3_12:
	movb	$14, %dl
	jmp	.LBBbca4a5a3_40
.LBBbca4a5a3_10:
	movb	$12, %dl
	jmp	.LBBbca4a5a3_40
.LBBbca4a5a3_30:
	movb	$5, %dl
	jmp	.LBBbca4a5a3_40
.LBBbca4a5a3_32:
	movb	$3, %dl
	jmp	.LBBbca4a5a3_40
.LBBbca4a5a3_4:
	xorl	%edx, %edx
	jmp	.LBBbca4a5a3_40
.LBBbca4a5a3_7:
	movb	$13, %dl
	jmp	.LBBbca4a5a3_40
.LBBbca4a5a3_8:
	movb	$38, %dl
	jmp	.LBBbca4a5a3_40
.LBBbca4a5a3_21:
	movb	$11, %dl
	jmp	.LBBbca4a5a3_40
.LBBbca4a5a3_5:
	movb	$35, %dl
	jmp	.LBBbca4a5a3_40
.LBBbca4a5a3_6:
	movb	$34, %dl
	jmp	.LBBbca4a5a3_40
.LBBbca4a5a3_14:
	movb	$20, %dl
	jmp	.LBBbca4a5a3_40
.LBBbca4a5a3_13:
	movb	$15, %dl
	jmp	.LBBbca4a5a3_40
.LBBbca4a5a3_38:
	movb	$19, %dl
	jmp	.LBBbca4a5a3_40
.LBBbca4a5a3_25:
	movb	$16, %dl
	jmp	.LBBbca4a5a3_40
.LBBbca4a5a3_31:
	movb	$6, %dl
	jmp	.LBBbca4a5a3_40
.LBBbca4a5a3_16:
	movb	$27, %dl
	jmp	.LBBbca4a5a3_40
.LBBbca4a5a3_17:
	movb	$24, %dl
	jmp	.LBBbca4a5a3_40
.LBBbca4a5a3_35:
	movb	$2, %dl
	jmp	.LBBbca4a5a3_40
.LBBbca4a5a3_19:
	movb	$17, %dl
.LBBbca4a5a3_40:
	movb	$0, (%rbx)
	movb	%dl, 1(%rbx)
	movw	$0, 2(%rbx)
	movl	%ecx, 4(%rbx)
	xorps	%xmm0, %xmm0
	movups	%xmm0, 8(%rbx)
	movups	%xmm0, 24(%rbx)
	movups	%xmm0, 40(%rbx)
	movups	%xmm0, 56(%rbx)
	movups	%xmm0, 72(%rbx)
	popq	%rbx
	retq
.Lfunc_endbca4a5a3:
	.size	std_io.io.error.last_error, .Lfunc_endbca4a5a3-std_io.io.error.last_error
	.section	.rodata.std_io.io.error.last_error,"a",@progbits
	.p2align	2, 0x0
.LJTIbca4a5a3_0:
	.long	.LBBbca4a5a3_3-.LJTIbca4a5a3_0
	.long	.LBBbca4a5a3_4-.LJTIbca4a5a3_0
	.long	.LBBbca4a5a3_40-.LJTIbca4a5a3_0
	.long	.LBBbca4a5a3_5-.LJTIbca4a5a3_0
	.long	.LBBbca4a5a3_40-.LJTIbca4a5a3_0
	.long	.LBBbca4a5a3_40-.LJTIbca4a5a3_0
	.long	.LBBbca4a5a3_6-.LJTIbca4a5a3_0
	.long	.LBBbca4a5a3_40-.LJTIbca4a5a3_0
	.long	.LBBbca4a5a3_40-.LJTIbca4a5a3_0
	.long	.LBBbca4a5a3_40-.LJTIbca4a5a3_0
	.long	.LBBbca4a5a3_7-.LJTIbca4a5a3_0
	.long	.LBBbca4a5a3_8-.LJTIbca4a5a3_0
	.long	.LBBbca4a5a3_3-.LJTIbca4a5a3_0
	.long	.LBBbca4a5a3_40-.LJTIbca4a5a3_0
	.long	.LBBbca4a5a3_40-.LJTIbca4a5a3_0
	.long	.LBBbca4a5a3_9-.LJTIbca4a5a3_0
	.long	.LBBbca4a5a3_10-.LJTIbca4a5a3_0
	.long	.LBBbca4a5a3_11-.LJTIbca4a5a3_0
	.long	.LBBbca4a5a3_40-.LJTIbca4a5a3_0
	.long	.LBBbca4a5a3_12-.LJTIbca4a5a3_0
	.long	.LBBbca4a5a3_13-.LJTIbca4a5a3_0
	.long	.LBBbca4a5a3_14-.LJTIbca4a5a3_0
	.long	.LBBbca4a5a3_40-.LJTIbca4a5a3_0
	.long	.LBBbca4a5a3_40-.LJTIbca4a5a3_0
	.long	.LBBbca4a5a3_40-.LJTIbca4a5a3_0
	.long	.LBBbca4a5a3_15-.LJTIbca4a5a3_0
	.long	.LBBbca4a5a3_16-.LJTIbca4a5a3_0
	.long	.LBBbca4a5a3_17-.LJTIbca4a5a3_0
	.long	.LBBbca4a5a3_18-.LJTIbca4a5a3_0
	.long	.LBBbca4a5a3_19-.LJTIbca4a5a3_0
	.long	.LBBbca4a5a3_20-.LJTIbca4a5a3_0
	.long	.LBBbca4a5a3_21-.LJTIbca4a5a3_0
	.long	.LBBbca4a5a3_40-.LJTIbca4a5a3_0
	.long	.LBBbca4a5a3_40-.LJTIbca4a5a3_0
	.long	.LBBbca4a5a3_22-.LJTIbca4a5a3_0
	.long	.LBBbca4a5a3_23-.LJTIbca4a5a3_0
	.long	.LBBbca4a5a3_40-.LJTIbca4a5a3_0
	.long	.LBBbca4a5a3_24-.LJTIbca4a5a3_0
	.long	.LBBbca4a5a3_25-.LJTIbca4a5a3_0
	.long	.LBBbca4a5a3_26-.LJTIbca4a5a3_0
	.long	.LBBbca4a5a3_40-.LJTIbca4a5a3_0
	.long	.LBBbca4a5a3_40-.LJTIbca4a5a3_0
	.long	.LBBbca4a5a3_40-.LJTIbca4a5a3_0
	.long	.LBBbca4a5a3_40-.LJTIbca4a5a3_0
	.long	.LBBbca4a5a3_40-.LJTIbca4a5a3_0
	.long	.LBBbca4a5a3_40-.LJTIbca4a5a3_0
	.long	.LBBbca4a5a3_40-.LJTIbca4a5a3_0
	.long	.LBBbca4a5a3_40-.LJTIbca4a5a3_0
	.long	.LBBbca4a5a3_40-.LJTIbca4a5a3_0
	.long	.LBBbca4a5a3_40-.LJTIbca4a5a3_0
	.long	.LBBbca4a5a3_40-.LJTIbca4a5a3_0
	.long	.LBBbca4a5a3_40-.LJTIbca4a5a3_0
	.long	.LBBbca4a5a3_40-.LJTIbca4a5a3_0
	.long	.LBBbca4a5a3_40-.LJTIbca4a5a3_0
	.long	.LBBbca4a5a3_40-.LJTIbca4a5a3_0
	.long	.LBBbca4a5a3_40-.LJTIbca4a5a3_0
	.long	.LBBbca4a5a3_40-.LJTIbca4a5a3_0
	.long	.LBBbca4a5a3_40-.LJTIbca4a5a3_0
	.long	.LBBbca4a5a3_40-.LJTIbca4a5a3_0
	.long	.LBBbca4a5a3_40-.LJTIbca4a5a3_0
	.long	.LBBbca4a5a3_40-.LJTIbca4a5a3_0
	.long	.LBBbca4a5a3_40-.LJTIbca4a5a3_0
	.long	.LBBbca4a5a3_40-.LJTIbca4a5a3_0
	.long	.LBBbca4a5a3_40-.LJTIbca4a5a3_0
	.long	.LBBbca4a5a3_40-.LJTIbca4a5a3_0
	.long	.LBBbca4a5a3_40-.LJTIbca4a5a3_0
	.long	.LBBbca4a5a3_40-.LJTIbca4a5a3_0
	.long	.LBBbca4a5a3_40-.LJTIbca4a5a3_0
	.long	.LBBbca4a5a3_40-.LJTIbca4a5a3_0
	.long	.LBBbca4a5a3_40-.LJTIbca4a5a3_0
	.long	.LBBbca4a5a3_40-.LJTIbca4a5a3_0
	.long	.LBBbca4a5a3_40-.LJTIbca4a5a3_0
	.long	.LBBbca4a5a3_40-.LJTIbca4a5a3_0
	.long	.LBBbca4a5a3_40-.LJTIbca4a5a3_0
	.long	.LBBbca4a5a3_40-.LJTIbca4a5a3_0
	.long	.LBBbca4a5a3_40-.LJTIbca4a5a3_0
	.long	.LBBbca4a5a3_40-.LJTIbca4a5a3_0
	.long	.LBBbca4a5a3_40-.LJTIbca4a5a3_0
	.long	.LBBbca4a5a3_40-.LJTIbca4a5a3_0
	.long	.LBBbca4a5a3_40-.LJTIbca4a5a3_0
	.long	.LBBbca4a5a3_40-.LJTIbca4a5a3_0
	.long	.LBBbca4a5a3_40-.LJTIbca4a5a3_0
	.long	.LBBbca4a5a3_40-.LJTIbca4a5a3_0
	.long	.LBBbca4a5a3_40-.LJTIbca4a5a3_0
	.long	.LBBbca4a5a3_40-.LJTIbca4a5a3_0
	.long	.LBBbca4a5a3_40-.LJTIbca4a5a3_0
	.long	.LBBbca4a5a3_40-.LJTIbca4a5a3_0
	.long	.LBBbca4a5a3_40-.LJTIbca4a5a3_0
	.long	.LBBbca4a5a3_40-.LJTIbca4a5a3_0
	.long	.LBBbca4a5a3_40-.LJTIbca4a5a3_0
	.long	.LBBbca4a5a3_40-.LJTIbca4a5a3_0
	.long	.LBBbca4a5a3_40-.LJTIbca4a5a3_0
	.long	.LBBbca4a5a3_40-.LJTIbca4a5a3_0
	.long	.LBBbca4a5a3_40-.LJTIbca4a5a3_0
	.long	.LBBbca4a5a3_24-.LJTIbca4a5a3_0
	.long	.LBBbca4a5a3_40-.LJTIbca4a5a3_0
	.long	.LBBbca4a5a3_40-.LJTIbca4a5a3_0
	.long	.LBBbca4a5a3_27-.LJTIbca4a5a3_0
	.long	.LBBbca4a5a3_28-.LJTIbca4a5a3_0
	.long	.LBBbca4a5a3_29-.LJTIbca4a5a3_0
	.long	.LBBbca4a5a3_30-.LJTIbca4a5a3_0
	.long	.LBBbca4a5a3_40-.LJTIbca4a5a3_0
	.long	.LBBbca4a5a3_31-.LJTIbca4a5a3_0
	.long	.LBBbca4a5a3_32-.LJTIbca4a5a3_0
	.long	.LBBbca4a5a3_40-.LJTIbca4a5a3_0
	.long	.LBBbca4a5a3_40-.LJTIbca4a5a3_0
	.long	.LBBbca4a5a3_33-.LJTIbca4a5a3_0
	.long	.LBBbca4a5a3_40-.LJTIbca4a5a3_0
	.long	.LBBbca4a5a3_40-.LJTIbca4a5a3_0
	.long	.LBBbca4a5a3_34-.LJTIbca4a5a3_0
	.long	.LBBbca4a5a3_35-.LJTIbca4a5a3_0
	.long	.LBBbca4a5a3_40-.LJTIbca4a5a3_0
	.long	.LBBbca4a5a3_36-.LJTIbca4a5a3_0
	.long	.LBBbca4a5a3_40-.LJTIbca4a5a3_0
	.long	.LBBbca4a5a3_37-.LJTIbca4a5a3_0
	.long	.LBBbca4a5a3_38-.LJTIbca4a5a3_0
	.long	.LBBbca4a5a3_40-.LJTIbca4a5a3_0
	.long	.LBBbca4a5a3_40-.LJTIbca4a5a3_0
	.long	.LBBbca4a5a3_40-.LJTIbca4a5a3_0
	.long	.LBBbca4a5a3_40-.LJTIbca4a5a3_0
	.long	.LBBbca4a5a3_40-.LJTIbca4a5a3_0
	.long	.LBBbca4a5a3_39-.LJTIbca4a5a3_0

	.section	.text.unlikely.std_alloc.vec.Vec.grow_amortized.e3d5df6901cfba47,"ax",@progbits
	.p2align	4
	.type	std_alloc.vec.Vec.grow_amortized.e3d5df6901cfba47,@function
std_alloc.vec.Vec.grow_amortized.e3d5df6901cfba47:
	movq	%rsi, %rax
	movq	8(%rdi), %rsi
	addq	%rsi, %rax
	jae	.LBBb0fa3bf3_2
	xorl	%eax, %eax
	retq
.LBBb0fa3bf3_2:
	pushq	%r14
	pushq	%rbx
	pushq	%rax
	cmpq	$9, %rax
	movl	$8, %ebx
	cmovaeq	%rax, %rbx
	movq	16(%rdi), %rcx
	movq	%rcx, %rdx
	shrq	$62, %rdx
	leaq	(%rcx,%rcx), %rax
	cmpq	%rax, %rbx
	cmovaq	%rbx, %rax
	testq	%rdx, %rdx
	cmoveq	%rax, %rbx
	testq	%rbx, %rbx
	js	.LBBb0fa3bf3_6
	testq	%rcx, %rcx
	je	.LBBb0fa3bf3_8
	movq	%rdi, %r14
	movq	(%rdi), %rdi
	movl	$1, %ecx
	movq	%rbx, %rdx
	callq	rattle_realloc@PLT
	testb	$1, %al
	je	.LBBb0fa3bf3_6
.LBBb0fa3bf3_9:
	movq	%rdx, (%r14)
	movq	%rbx, 16(%r14)
	movb	$1, %al
	addq	$8, %rsp
	popq	%rbx
	popq	%r14
	retq
.LBBb0fa3bf3_8:
	movq	%rdi, %r14
	movl	$1, %esi
	movq	%rax, %rdi
	callq	rattle_alloc@PLT
	testb	$1, %al
	jne	.LBBb0fa3bf3_9
.LBBb0fa3bf3_6:
	xorl	%eax, %eax
	addq	$8, %rsp
	popq	%rbx
	popq	%r14
	retq
.Lfunc_endb0fa3bf3:
	.size	std_alloc.vec.Vec.grow_amortized.e3d5df6901cfba47, .Lfunc_endb0fa3bf3-std_alloc.vec.Vec.grow_amortized.e3d5df6901cfba47

	.section	.rodata.cst16,"aM",@progbits,16
	.p2align	4, 0x0
.LCPI37d7e3d0_0:
	.zero	1
	.zero	1
	.byte	0
	.byte	2
	.zero	1
	.zero	1
	.zero	1
	.zero	1
	.zero	1
	.zero	1
	.zero	1
	.zero	1
	.zero	1
	.zero	1
	.zero	1
	.zero	1
.LCPI37d7e3d0_1:
	.byte	198
	.byte	198
	.byte	198
	.byte	198
	.byte	198
	.byte	198
	.byte	198
	.byte	198
	.zero	1
	.zero	1
	.zero	1
	.zero	1
	.zero	1
	.zero	1
	.zero	1
	.zero	1
.LCPI37d7e3d0_2:
	.byte	246
	.byte	246
	.byte	246
	.byte	246
	.byte	246
	.byte	246
	.byte	246
	.byte	246
	.zero	1
	.zero	1
	.zero	1
	.zero	1
	.zero	1
	.zero	1
	.zero	1
	.zero	1
.LCPI37d7e3d0_3:
	.byte	48
	.byte	48
	.byte	48
	.byte	48
	.byte	48
	.byte	48
	.byte	48
	.byte	48
	.zero	1
	.zero	1
	.zero	1
	.zero	1
	.zero	1
	.zero	1
	.zero	1
	.zero	1
.LCPI37d7e3d0_4:
	.zero	16,32
.LCPI37d7e3d0_5:
	.quad	19
	.quad	20
.LCPI37d7e3d0_6:
	.quad	17
	.quad	18
.LCPI37d7e3d0_7:
	.quad	15
	.quad	16
.LCPI37d7e3d0_8:
	.quad	13
	.quad	14
.LCPI37d7e3d0_9:
	.quad	11
	.quad	12
.LCPI37d7e3d0_10:
	.quad	9
	.quad	10
.LCPI37d7e3d0_11:
	.quad	7
	.quad	8
.LCPI37d7e3d0_12:
	.quad	5
	.quad	6
.LCPI37d7e3d0_13:
	.quad	3
	.quad	3
.LCPI37d7e3d0_14:
	.quad	-9223372036854775808
	.quad	-9223372036854775808
.LCPI37d7e3d0_15:
	.quad	16
	.quad	16
.LCPI37d7e3d0_16:
	.byte	16
	.byte	15
	.byte	14
	.byte	13
	.byte	12
	.byte	11
	.byte	10
	.byte	9
	.byte	8
	.byte	7
	.byte	6
	.byte	5
	.byte	4
	.byte	3
	.byte	2
	.byte	1
.LCPI37d7e3d0_17:
	.byte	0
	.byte	1
	.byte	1
	.byte	2
	.byte	3
	.byte	4
	.byte	4
	.byte	5
	.byte	6
	.byte	7
	.byte	7
	.byte	8
	.byte	9
	.byte	10
	.byte	10
	.byte	11
.LCPI37d7e3d0_18:
	.byte	4
	.byte	5
	.byte	5
	.byte	6
	.byte	7
	.byte	8
	.byte	8
	.byte	9
	.byte	10
	.byte	11
	.byte	11
	.byte	12
	.byte	13
	.byte	14
	.byte	14
	.byte	15
.LCPI37d7e3d0_19:
	.short	63
	.short	63
	.short	63
	.short	63
	.short	63
	.short	63
	.short	63
	.short	63
.LCPI37d7e3d0_20:
	.short	16128
	.short	16128
	.short	16128
	.short	16128
	.short	16128
	.short	16128
	.short	16128
	.short	16128
.LCPI37d7e3d0_21:
	.byte	255
	.byte	0
	.byte	0
	.byte	0
	.byte	255
	.byte	0
	.byte	0
	.byte	0
	.byte	255
	.byte	0
	.byte	0
	.byte	0
	.byte	255
	.byte	0
	.byte	0
	.byte	0
.LCPI37d7e3d0_22:
	.zero	16,63
.LCPI37d7e3d0_23:
	.byte	63
	.byte	63
	.byte	63
	.byte	63
	.byte	63
	.byte	63
	.byte	63
	.byte	63
	.zero	1
	.zero	1
	.zero	1
	.zero	1
	.zero	1
	.zero	1
	.zero	1
	.zero	1
.LCPI37d7e3d0_24:
	.byte	4
	.byte	12
	.byte	5
	.byte	13
	.byte	6
	.byte	14
	.byte	7
	.byte	15
	.zero	1
	.zero	1
	.zero	1
	.zero	1
	.zero	1
	.zero	1
	.zero	1
	.zero	1
.LCPI37d7e3d0_25:
	.byte	63
	.byte	63
	.zero	1
	.zero	1
	.zero	1
	.zero	1
	.zero	1
	.zero	1
	.zero	1
	.zero	1
	.zero	1
	.zero	1
	.zero	1
	.zero	1
	.zero	1
	.zero	1
.LCPI37d7e3d0_26:
	.byte	4
	.byte	12
	.byte	5
	.byte	13
	.byte	6
	.byte	14
	.byte	7
	.byte	15
	.byte	0
	.byte	0
	.byte	0
	.byte	0
	.byte	0
	.byte	0
	.byte	0
	.byte	0
	.section	.text.hll_merge.stack.Stack.carry_line.8a2f8b2564a2651f,"ax",@progbits
	.p2align	4
	.type	hll_merge.stack.Stack.carry_line.8a2f8b2564a2651f,@function
hll_merge.stack.Stack.carry_line.8a2f8b2564a2651f:
	pushq	%rbp
	pushq	%r15
	pushq	%r14
	pushq	%r13
	pushq	%r12
	pushq	%rbx
	subq	$1112, %rsp
	testq	%rcx, %rcx
	je	.LBB37d7e3d0_2
	movzbl	(%rdx), %ebx
	cmpb	$35, %bl
	jne	.LBB37d7e3d0_5
.LBB37d7e3d0_2:
	xorl	%ebp, %ebp
	xorl	%ebx, %ebx
.LBB37d7e3d0_3:
	xorl	%r15d, %r15d
.LBB37d7e3d0_4:
	movb	%bpl, (%rdi)
	movb	%bl, 1(%rdi)
	movb	%r15b, 2(%rdi)
	jmp	.LBB37d7e3d0_108
.LBB37d7e3d0_5:
	cmpq	$7, %rcx
	jae	.LBB37d7e3d0_8
	cmpq	$6, %rcx
	jne	.LBB37d7e3d0_28
	movzbl	1(%rdx), %eax
	movd	2(%rdx), %xmm0
	jmp	.LBB37d7e3d0_14
.LBB37d7e3d0_8:
	movzbl	1(%rdx), %eax
	movl	2(%rdx), %r8d
	movd	%r8d, %xmm0
	movl	%r8d, %r9d
	shrl	$24, %r9d
	shrl	$8, %r8d
	xorb	$112, %r8b
	cmpb	$110, %r9b
	sete	%r9b
	movzbl	6(%rdx), %r10d
	movdqa	%xmm0, %xmm1
	pshufb	.LCPI37d7e3d0_0(%rip), %xmm1
	movzbl	%bl, %r11d
	pinsrb	$0, %r11d, %xmm1
	pinsrb	$1, %eax, %xmm1
	xorb	$32, %r10b
	movd	%xmm1, %r11d
	cmpl	$1869967203, %r11d
	sete	%r11b
	andb	%r9b, %r11b
	orb	%r8b, %r10b
	sete	%bpl
	leaq	7(%rdx), %r10
	leaq	-7(%rcx), %r8
	xorl	%r9d, %r9d
	testb	%bpl, %r11b
	movl	$0, %r11d
	cmovneq	%r10, %r11
	cmovneq	%r8, %r9
	je	.LBB37d7e3d0_14
	cmpq	$7, %r8
	ja	.LBB37d7e3d0_53
	xorl	%eax, %eax
	testq	%r8, %r8
	je	.LBB37d7e3d0_106
	xorl	%ebx, %ebx
	.p2align	4
.LBB37d7e3d0_12:
	movzbl	(%r10,%rbx), %ecx
	addb	$-48, %cl
	cmpb	$9, %cl
	ja	.LBB37d7e3d0_54
	leal	(%rax,%rax,4), %eax
	movzbl	%cl, %ecx
	leal	(%rcx,%rax,2), %eax
	incq	%rbx
	cmpq	%rbx, %r9
	jne	.LBB37d7e3d0_12
	jmp	.LBB37d7e3d0_106
.LBB37d7e3d0_14:
	cmpb	$105, %bl
	sete	%r8b
	cmpb	$109, %al
	sete	%r9b
	movd	%xmm0, %eax
	cmpl	$543516513, %eax
	sete	%al
	andb	%r8b, %r9b
	andb	%al, %r9b
	leaq	6(%rdx), %rax
	xorl	%r10d, %r10d
	testb	%r9b, %r9b
	movl	$0, %r15d
	cmovneq	%rax, %r15
	leaq	-6(%rcx), %r8
	cmovneq	%r8, %r10
	cmpb	$1, %r9b
	jne	.LBB37d7e3d0_28
	testq	%r8, %r8
	je	.LBB37d7e3d0_106
	shrq	$6, %r8
	je	.LBB37d7e3d0_19
	.p2align	4
.LBB37d7e3d0_17:
	movdqu	(%rax), %xmm0
	movdqu	16(%rax), %xmm1
	movdqu	32(%rax), %xmm2
	movdqu	48(%rax), %xmm3
	movdqa	.LCPI37d7e3d0_4(%rip), %xmm4
	pcmpeqb	%xmm4, %xmm3
	pcmpeqb	%xmm4, %xmm2
	por	%xmm3, %xmm2
	pcmpeqb	%xmm4, %xmm0
	pcmpeqb	%xmm4, %xmm1
	por	%xmm0, %xmm1
	por	%xmm2, %xmm1
	pmovmskb	%xmm1, %ecx
	testl	%ecx, %ecx
	jne	.LBB37d7e3d0_106
	addq	$64, %rax
	decq	%r8
	jne	.LBB37d7e3d0_17
.LBB37d7e3d0_19:
	movq	%r10, %rax
	andq	$63, %rax
	je	.LBB37d7e3d0_23
	movq	%r10, %rcx
	andq	$-64, %rcx
	addq	%r15, %rcx
	xorl	%edx, %edx
	.p2align	4
.LBB37d7e3d0_21:
	cmpb	$32, (%rcx,%rdx)
	je	.LBB37d7e3d0_106
	incq	%rdx
	cmpq	%rdx, %rax
	jne	.LBB37d7e3d0_21
.LBB37d7e3d0_23:
	pxor	%xmm0, %xmm0
	movdqa	%xmm0, 144(%rsp)
	movdqa	%xmm0, 128(%rsp)
	movdqa	%xmm0, 112(%rsp)
	movdqa	%xmm0, 96(%rsp)
	movdqa	%xmm0, 80(%rsp)
	movdqa	%xmm0, 64(%rsp)
	movq	$0, 160(%rsp)
	movq	40(%rsi), %rax
	movq	%rax, 224(%rsp)
	movdqu	24(%rsi), %xmm1
	movdqa	%xmm1, 208(%rsp)
	leaq	4(%rsp), %rax
	movq	%rax, 24(%rsi)
	movdqu	%xmm0, 32(%rsi)
	movq	%r10, %rbx
	shrq	%rbx
	movq	216(%rsp), %rax
	cmpq	%rbx, %rax
	cmovaeq	%rbx, %rax
	movq	%rax, 216(%rsp)
	jae	.LBB37d7e3d0_109
	movq	%rbx, %rdx
	subq	%rax, %rdx
	movq	224(%rsp), %r14
	movq	%r14, %rcx
	subq	%rax, %rcx
	cmpq	%rcx, %rdx
	ja	.LBB37d7e3d0_191
	leaq	(%rax,%rdx), %r12
	cmpq	%r12, %rax
	jae	.LBB37d7e3d0_27
.LBB37d7e3d0_26:
	addq	208(%rsp), %rax
	movq	%r10, 16(%rsp)
	movq	%rdi, %r13
	movq	%rax, %rdi
	movq	%rsi, %rbp
	xorl	%esi, %esi
	callq	memset@PLT
	movq	%rbp, %rsi
	movq	%r13, %rdi
	movq	16(%rsp), %r10
.LBB37d7e3d0_27:
	movq	%r14, 224(%rsp)
	jmp	.LBB37d7e3d0_110
.LBB37d7e3d0_28:
	leaq	1(%rdx), %r15
	xorl	%eax, %eax
	.p2align	4
.LBB37d7e3d0_29:
	movzbl	-1(%r15), %ebp
	cmpb	$32, %bpl
	je	.LBB37d7e3d0_32
	incq	%rax
	incq	%r15
	cmpq	%rax, %rcx
	jne	.LBB37d7e3d0_29
	xorl	%r15d, %r15d
	xorl	%r12d, %r12d
	addq	$-3, %rcx
	cmpq	$3, %rcx
	jbe	.LBB37d7e3d0_33
	jmp	.LBB37d7e3d0_106
.LBB37d7e3d0_32:
	movq	%rax, %r12
	notq	%r12
	addq	%rcx, %r12
	movq	%rax, %rcx
	addq	$-3, %rcx
	cmpq	$3, %rcx
	ja	.LBB37d7e3d0_106
.LBB37d7e3d0_33:
	leaq	.LJTI37d7e3d0_0(%rip), %rax
	movslq	(%rax,%rcx,4), %rcx
	addq	%rax, %rcx
	jmpq	*%rcx
.LBB37d7e3d0_34:
	cmpb	$110, %bl
	jne	.LBB37d7e3d0_106
	cmpb	$101, 1(%rdx)
	jne	.LBB37d7e3d0_106
	xorb	$32, %bpl
	movzbl	2(%rdx), %eax
	xorb	$119, %al
	orb	%bpl, %al
	jne	.LBB37d7e3d0_106
	cmpq	$7, %r12
	ja	.LBB37d7e3d0_164
	xorl	%eax, %eax
	testq	%r12, %r12
	je	.LBB37d7e3d0_106
	movzbl	(%r15), %ecx
	addb	$-48, %cl
	cmpb	$9, %cl
	ja	.LBB37d7e3d0_199
	cmpq	$1, %r12
	je	.LBB37d7e3d0_106
	movzbl	%cl, %eax
	movzbl	1(%r15), %ecx
	addb	$-48, %cl
	movl	$1, %r9d
	cmpb	$9, %cl
	ja	.LBB37d7e3d0_200
	cmpq	$2, %r12
	je	.LBB37d7e3d0_106
	leal	(%rax,%rax,4), %eax
	movzbl	%cl, %ecx
	leal	(%rcx,%rax,2), %eax
	movzbl	2(%r15), %ecx
	addb	$-48, %cl
	movl	$2, %r9d
	cmpb	$9, %cl
	ja	.LBB37d7e3d0_200
	cmpq	$3, %r12
	je	.LBB37d7e3d0_106
	movq	%r12, %r8
	leal	(%rax,%rax,4), %eax
	movzbl	%cl, %ecx
	leal	(%rcx,%rax,2), %eax
	movzbl	3(%r15), %ecx
	addb	$-48, %cl
	movl	$3, %r9d
	cmpb	$9, %cl
	ja	.LBB37d7e3d0_644
	cmpq	$4, %r8
	je	.LBB37d7e3d0_106
	leal	(%rax,%rax,4), %eax
	movzbl	%cl, %ecx
	leal	(%rcx,%rax,2), %eax
	movzbl	4(%r15), %ecx
	addb	$-48, %cl
	movl	$4, %r9d
	cmpb	$9, %cl
	ja	.LBB37d7e3d0_644
	cmpq	$5, %r8
	je	.LBB37d7e3d0_106
	leal	(%rax,%rax,4), %eax
	movzbl	%cl, %ecx
	leal	(%rcx,%rax,2), %eax
	movzbl	5(%r15), %ecx
	addb	$-48, %cl
	movl	$5, %r9d
	cmpb	$9, %cl
	ja	.LBB37d7e3d0_644
	cmpq	$6, %r8
	je	.LBB37d7e3d0_106
	movzbl	6(%r15), %edx
	addb	$-48, %dl
	cmpb	$10, %dl
	jb	.LBB37d7e3d0_106
	leal	(%rax,%rax,4), %eax
	movzbl	%cl, %ecx
	leal	(%rcx,%rax,2), %eax
	movl	$6, %r9d
	movq	%r8, %r12
	xorl	%ecx, %ecx
	testq	%r9, %r9
	jne	.LBB37d7e3d0_201
	jmp	.LBB37d7e3d0_107
.LBB37d7e3d0_53:
	movq	(%r10), %xmm0
	movdqa	.LCPI37d7e3d0_1(%rip), %xmm1
	paddb	%xmm0, %xmm1
	movdqa	.LCPI37d7e3d0_2(%rip), %xmm2
	pmaxub	%xmm1, %xmm2
	pcmpeqb	%xmm1, %xmm2
	pmovmskb	%xmm2, %eax
	notl	%eax
	orl	$256, %eax
	psubusb	.LCPI37d7e3d0_3(%rip), %xmm0
	rep		bsfl	%eax, %ebx
	movl	%ebx, %eax
	shll	$2, %eax
	leaq	.Lstatic.2(%rip), %rcx
	subq	%rax, %rcx
	movdqu	32(%rcx), %xmm1
	movdqu	48(%rcx), %xmm2
	pmovzxbd	%xmm0, %xmm3
	pmulld	%xmm1, %xmm3
	pshufd	$85, %xmm0, %xmm0
	pmovzxbd	%xmm0, %xmm0
	pmulld	%xmm2, %xmm0
	phaddd	%xmm0, %xmm3
	pshufd	$238, %xmm3, %xmm0
	paddd	%xmm3, %xmm0
	pshufd	$85, %xmm0, %xmm1
	paddd	%xmm0, %xmm1
	movd	%xmm1, %eax
.LBB37d7e3d0_54:
	xorl	%ecx, %ecx
	testq	%rbx, %rbx
	je	.LBB37d7e3d0_107
	cmpq	%r9, %rbx
	je	.LBB37d7e3d0_107
	cmpb	$32, (%r10,%rbx)
	jne	.LBB37d7e3d0_106
	movq	%rsi, %r8
	leaq	(%r11,%rbx), %r10
	incq	%r10
	incq	%rbx
	movq	%r9, %rdx
	subq	%rbx, %rdx
	cmpq	$7, %rdx
	ja	.LBB37d7e3d0_145
	xorl	%esi, %esi
	movl	$0, %ecx
	cmpq	%rbx, %r9
	je	.LBB37d7e3d0_107
	xorl	%r9d, %r9d
.LBB37d7e3d0_60:
	movzbl	(%r10,%r9), %ecx
	addb	$-48, %cl
	cmpb	$9, %cl
	ja	.LBB37d7e3d0_146
	leal	(%rsi,%rsi,4), %esi
	movzbl	%cl, %ecx
	leal	(%rcx,%rsi,2), %esi
	incq	%r9
	cmpq	%r9, %rdx
	jne	.LBB37d7e3d0_60
	jmp	.LBB37d7e3d0_148
.LBB37d7e3d0_62:
	movq	%r12, 16(%rsp)
	movl	%ebx, %eax
	xorb	$105, %al
	movzbl	1(%rdx), %r13d
	movzbl	2(%rdx), %r14d
	movl	%r13d, %ecx
	xorb	$109, %cl
	orb	%al, %cl
	movl	%r14d, %eax
	xorb	$97, %al
	orb	%cl, %al
	movzbl	3(%rdx), %r12d
	movl	%r12d, %ecx
	xorb	$103, %cl
	orb	%al, %cl
	jne	.LBB37d7e3d0_105
	leaq	.Lstatic.4(%rip), %rax
	movq	%rsi, 176(%rsp)
	movl	$5, %esi
	movq	%rdi, 32(%rsp)
	movq	%rdx, %rdi
	movq	%rdx, 48(%rsp)
	movq	%rax, %rdx
	callq	core.cmp.slices.groups_equal._i8_31_core.cmp.numbers.U8PartialEq
	movq	48(%rsp), %rdx
	movq	176(%rsp), %rsi
	movq	32(%rsp), %rdi
	testb	%al, %al
	je	.LBB37d7e3d0_105
	xorl	%ecx, %ecx
	cmpb	$32, %bpl
	jne	.LBB37d7e3d0_107
	cmpq	$0, 16(%rsp)
	je	.LBB37d7e3d0_107
	movq	16(%rsp), %r10
	movq	%r10, %rax
	shrq	$6, %rax
	movq	%r15, %rcx
	movq	176(%rsp), %rsi
	je	.LBB37d7e3d0_69
.LBB37d7e3d0_67:
	movdqu	(%rcx), %xmm0
	movdqu	16(%rcx), %xmm1
	movdqu	32(%rcx), %xmm2
	movdqu	48(%rcx), %xmm3
	movdqa	.LCPI37d7e3d0_4(%rip), %xmm4
	pcmpeqb	%xmm4, %xmm3
	pcmpeqb	%xmm4, %xmm2
	por	%xmm3, %xmm2
	pcmpeqb	%xmm4, %xmm0
	pcmpeqb	%xmm4, %xmm1
	por	%xmm0, %xmm1
	por	%xmm2, %xmm1
	pmovmskb	%xmm1, %edx
	testl	%edx, %edx
	jne	.LBB37d7e3d0_106
	addq	$64, %rcx
	decq	%rax
	jne	.LBB37d7e3d0_67
.LBB37d7e3d0_69:
	movq	%r10, %rax
	andq	$63, %rax
	je	.LBB37d7e3d0_23
	movq	%r10, %rcx
	andq	$-64, %rcx
	addq	%r15, %rcx
	xorl	%edx, %edx
.LBB37d7e3d0_71:
	cmpb	$32, (%rcx,%rdx)
	je	.LBB37d7e3d0_106
	incq	%rdx
	cmpq	%rdx, %rax
	jne	.LBB37d7e3d0_71
	jmp	.LBB37d7e3d0_23
.LBB37d7e3d0_73:
	movzwl	1(%rdx), %eax
	movd	%eax, %xmm0
	pslld	$8, %xmm0
	movzbl	%bl, %eax
	pinsrb	$0, %eax, %xmm0
	pinsrb	$3, 3(%rdx), %xmm0
	movd	%xmm0, %eax
	cmpl	$1886744419, %eax
	jne	.LBB37d7e3d0_106
	movq	%rsi, %rbx
	movq	%rdi, %r14
	leaq	.Lstatic.5(%rip), %rax
	movl	$6, %esi
	movq	%rdx, %rdi
	movq	%rax, %rdx
	callq	core.cmp.slices.groups_equal._i8_31_core.cmp.numbers.U8PartialEq
	xorl	%ecx, %ecx
	cmpb	$32, %bpl
	jne	.LBB37d7e3d0_155
	testb	%al, %al
	movq	%r14, %rdi
	je	.LBB37d7e3d0_107
	movq	%r12, %rdx
	cmpq	$7, %r12
	ja	.LBB37d7e3d0_156
	xorl	%eax, %eax
	testq	%rdx, %rdx
	je	.LBB37d7e3d0_106
	movzbl	(%r15), %ecx
	addb	$-48, %cl
	cmpb	$9, %cl
	ja	.LBB37d7e3d0_165
	cmpq	$1, %rdx
	je	.LBB37d7e3d0_106
	movzbl	%cl, %eax
	movzbl	1(%r15), %ecx
	addb	$-48, %cl
	movl	$1, %r8d
	cmpb	$9, %cl
	ja	.LBB37d7e3d0_166
	cmpq	$2, %rdx
	je	.LBB37d7e3d0_106
	leal	(%rax,%rax,4), %eax
	movzbl	%cl, %ecx
	leal	(%rcx,%rax,2), %eax
	movzbl	2(%r15), %ecx
	addb	$-48, %cl
	movl	$2, %r8d
	cmpb	$9, %cl
	ja	.LBB37d7e3d0_166
	cmpq	$3, %rdx
	je	.LBB37d7e3d0_144
	leal	(%rax,%rax,4), %eax
	movzbl	%cl, %ecx
	leal	(%rcx,%rax,2), %eax
	movzbl	3(%r15), %ecx
	addb	$-48, %cl
	movl	$3, %r8d
	cmpb	$9, %cl
	ja	.LBB37d7e3d0_92
	cmpq	$4, %r12
	je	.LBB37d7e3d0_144
	leal	(%rax,%rax,4), %eax
	movzbl	%cl, %ecx
	leal	(%rcx,%rax,2), %eax
	movzbl	4(%r15), %ecx
	addb	$-48, %cl
	movl	$4, %r8d
	cmpb	$9, %cl
	ja	.LBB37d7e3d0_92
	cmpq	$5, %r12
	je	.LBB37d7e3d0_144
	leal	(%rax,%rax,4), %eax
	movzbl	%cl, %ecx
	leal	(%rcx,%rax,2), %eax
	movzbl	5(%r15), %ecx
	addb	$-48, %cl
	movl	$5, %r8d
	cmpb	$9, %cl
	ja	.LBB37d7e3d0_92
	cmpq	$6, %r12
	je	.LBB37d7e3d0_144
	movzbl	6(%r15), %edx
	addb	$-48, %dl
	cmpb	$10, %dl
	jb	.LBB37d7e3d0_144
	leal	(%rax,%rax,4), %eax
	movzbl	%cl, %ecx
	leal	(%rcx,%rax,2), %eax
	movl	$6, %r8d
.LBB37d7e3d0_92:
	movq	%r14, %rdi
	movq	%r12, %rdx
	jmp	.LBB37d7e3d0_166
.LBB37d7e3d0_93:
	movzwl	1(%rdx), %eax
	movd	%eax, %xmm0
	pslld	$8, %xmm0
	movzbl	%bl, %eax
	pinsrb	$0, %eax, %xmm0
	pinsrb	$3, 3(%rdx), %xmm0
	movd	%xmm0, %eax
	cmpl	$1684828006, %eax
	jne	.LBB37d7e3d0_106
	movq	%rsi, %rbx
	movq	%rdi, %r14
	leaq	.Lstatic.7(%rip), %rax
	movl	$4, %esi
	movq	%rdx, %rdi
	movq	%rax, %rdx
	callq	core.cmp.slices.groups_equal._i8_31_core.cmp.numbers.U8PartialEq
	xorl	%ecx, %ecx
	cmpb	$32, %bpl
	jne	.LBB37d7e3d0_155
	testb	%al, %al
	movq	%r14, %rdi
	je	.LBB37d7e3d0_107
	movq	%r12, %rsi
	cmpq	$7, %r12
	ja	.LBB37d7e3d0_158
	xorl	%r8d, %r8d
	testq	%rsi, %rsi
	je	.LBB37d7e3d0_106
	movzbl	(%r15), %eax
	addb	$-48, %al
	cmpb	$9, %al
	ja	.LBB37d7e3d0_174
	movzbl	%al, %r8d
	cmpq	$1, %rsi
	je	.LBB37d7e3d0_177
	movzbl	1(%r15), %ecx
	addb	$-48, %cl
	movl	$1, %eax
	cmpb	$9, %cl
	ja	.LBB37d7e3d0_175
	leal	(%r8,%r8,4), %eax
	movzbl	%cl, %ecx
	leal	(%rcx,%rax,2), %r8d
	cmpq	$2, %rsi
	je	.LBB37d7e3d0_177
	movzbl	2(%r15), %ecx
	addb	$-48, %cl
	movl	$2, %eax
	cmpb	$9, %cl
	ja	.LBB37d7e3d0_175
	leal	(%r8,%r8,4), %eax
	movzbl	%cl, %ecx
	leal	(%rcx,%rax,2), %r8d
	cmpq	$3, %rsi
	jne	.LBB37d7e3d0_242
.LBB37d7e3d0_104:
	movq	%r14, %rdi
	leal	-4(%r8), %eax
	movb	$1, %cl
	cmpl	$17, %eax
	ja	.LBB37d7e3d0_107
	jmp	.LBB37d7e3d0_178
.LBB37d7e3d0_105:
	xorb	$117, %bl
	xorb	$110, %r13b
	orb	%bl, %r13b
	xorb	$105, %r14b
	orb	%r13b, %r14b
	xorb	$111, %r12b
	orb	%r14b, %r12b
	je	.LBB37d7e3d0_134
.LBB37d7e3d0_106:
	xorl	%ecx, %ecx
.LBB37d7e3d0_107:
	movb	$1, (%rdi)
	movb	%cl, 1(%rdi)
	movb	$0, 2(%rdi)
.LBB37d7e3d0_108:
	addq	$1112, %rsp
	popq	%rbx
	popq	%r12
	popq	%r13
	popq	%r14
	popq	%r15
	popq	%rbp
	retq
.LBB37d7e3d0_109:
	movq	%rax, %r12
.LBB37d7e3d0_110:
	movq	208(%rsp), %r14
	testb	$1, %r10b
	jne	.LBB37d7e3d0_131
	cmpq	%r12, %rbx
	jne	.LBB37d7e3d0_131
	testq	%rbx, %rbx
	je	.LBB37d7e3d0_151
	xorl	%eax, %eax
	jmp	.LBB37d7e3d0_116
.LBB37d7e3d0_114:
	addb	$-48, %dl
.LBB37d7e3d0_115:
	shlb	$4, %cl
	addb	%dl, %cl
	movb	%cl, (%r14,%rax)
	incq	%rax
	cmpq	%rax, %rbx
	je	.LBB37d7e3d0_151
.LBB37d7e3d0_116:
	movzbl	(%r15,%rax,2), %ecx
	cmpb	$48, %cl
	jb	.LBB37d7e3d0_131
	movzbl	1(%r15,%rax,2), %edx
	cmpb	$57, %cl
	ja	.LBB37d7e3d0_119
	addb	$-48, %cl
	jmp	.LBB37d7e3d0_124
.LBB37d7e3d0_119:
	cmpb	$65, %cl
	jb	.LBB37d7e3d0_131
	cmpb	$70, %cl
	ja	.LBB37d7e3d0_122
	addb	$-55, %cl
	jmp	.LBB37d7e3d0_124
.LBB37d7e3d0_122:
	leal	-97(%rcx), %r8d
	cmpb	$5, %r8b
	ja	.LBB37d7e3d0_131
	addb	$-87, %cl
.LBB37d7e3d0_124:
	cmpb	$48, %dl
	jb	.LBB37d7e3d0_131
	cmpb	$57, %dl
	jbe	.LBB37d7e3d0_114
	cmpb	$65, %dl
	jb	.LBB37d7e3d0_131
	cmpb	$70, %dl
	ja	.LBB37d7e3d0_129
	addb	$-55, %dl
	jmp	.LBB37d7e3d0_115
.LBB37d7e3d0_129:
	leal	-97(%rdx), %r8d
	cmpb	$5, %r8b
	ja	.LBB37d7e3d0_131
	addb	$-87, %dl
	jmp	.LBB37d7e3d0_115
.LBB37d7e3d0_131:
	movb	$2, %bl
	cmpq	$0, 224(%rsp)
	je	.LBB37d7e3d0_133
	movq	%rdi, %r15
	movq	%r14, %rdi
	callq	rattle_dealloc@PLT
	movq	%r15, %rdi
.LBB37d7e3d0_133:
	movb	$1, %bpl
	jmp	.LBB37d7e3d0_3
.LBB37d7e3d0_134:
	movq	%rsi, %rbx
	movq	%rdi, %r14
	leaq	.Lstatic.6(%rip), %rax
	movl	$5, %esi
	movq	%rdx, %rdi
	movq	%rax, %rdx
	callq	core.cmp.slices.groups_equal._i8_31_core.cmp.numbers.U8PartialEq
	xorl	%ecx, %ecx
	cmpb	$32, %bpl
	jne	.LBB37d7e3d0_155
	testb	%al, %al
	movq	%r14, %rdi
	je	.LBB37d7e3d0_107
	movq	16(%rsp), %rdx
	cmpq	$7, %rdx
	ja	.LBB37d7e3d0_160
	xorl	%eax, %eax
	testq	%rdx, %rdx
	je	.LBB37d7e3d0_106
	movzbl	(%r15), %ecx
	addb	$-48, %cl
	cmpb	$9, %cl
	ja	.LBB37d7e3d0_182
	cmpq	$1, %rdx
	je	.LBB37d7e3d0_106
	movzbl	%cl, %eax
	movzbl	1(%r15), %ecx
	addb	$-48, %cl
	movl	$1, %r9d
	cmpb	$9, %cl
	ja	.LBB37d7e3d0_183
	cmpq	$2, %rdx
	je	.LBB37d7e3d0_106
	leal	(%rax,%rax,4), %eax
	movzbl	%cl, %ecx
	leal	(%rcx,%rax,2), %eax
	movzbl	2(%r15), %ecx
	addb	$-48, %cl
	movl	$2, %r9d
	cmpb	$9, %cl
	ja	.LBB37d7e3d0_183
	cmpq	$3, %rdx
	jne	.LBB37d7e3d0_581
.LBB37d7e3d0_144:
	xorl	%ecx, %ecx
	movq	%r14, %rdi
	jmp	.LBB37d7e3d0_107
.LBB37d7e3d0_145:
	movq	(%r10), %xmm0
	movdqa	.LCPI37d7e3d0_1(%rip), %xmm1
	paddb	%xmm0, %xmm1
	movdqa	.LCPI37d7e3d0_2(%rip), %xmm2
	pmaxub	%xmm1, %xmm2
	pcmpeqb	%xmm1, %xmm2
	pmovmskb	%xmm2, %ecx
	notl	%ecx
	orl	$256, %ecx
	psubusb	.LCPI37d7e3d0_3(%rip), %xmm0
	rep		bsfl	%ecx, %r9d
	movl	%r9d, %ecx
	shll	$2, %ecx
	leaq	.Lstatic.2(%rip), %rsi
	subq	%rcx, %rsi
	movdqu	32(%rsi), %xmm1
	movdqu	48(%rsi), %xmm2
	pmovzxbd	%xmm0, %xmm3
	pmulld	%xmm1, %xmm3
	pshufd	$85, %xmm0, %xmm0
	pmovzxbd	%xmm0, %xmm0
	pmulld	%xmm2, %xmm0
	phaddd	%xmm0, %xmm3
	pshufd	$238, %xmm3, %xmm0
	paddd	%xmm3, %xmm0
	pshufd	$85, %xmm0, %xmm1
	paddd	%xmm0, %xmm1
	movd	%xmm1, %esi
.LBB37d7e3d0_146:
	xorl	%ecx, %ecx
	testq	%r9, %r9
	je	.LBB37d7e3d0_107
	cmpq	%rdx, %r9
	jne	.LBB37d7e3d0_107
.LBB37d7e3d0_148:
	movb	$1, %cl
	cmpl	$67108863, %eax
	ja	.LBB37d7e3d0_107
	leal	-64(%rsi), %edx
	cmpl	$-63, %edx
	jb	.LBB37d7e3d0_107
	movl	%esi, %esi
	shlq	$32, %rax
	orq	$2, %rax
	movl	%eax, %r13d
	shrl	$8, %r13d
	movl	%eax, %r14d
	shrl	$16, %r14d
	movq	%rax, %rdx
	shrq	$32, %rdx
	movl	%esi, %r9d
	shrl	$8, %r9d
	movzbl	%al, %eax
	leaq	.LJTI37d7e3d0_1(%rip), %rcx
	movslq	(%rcx,%rax,4), %rax
	addq	%rcx, %rax
	movl	%esi, %r12d
	jmpq	*%rax
.LBB37d7e3d0_151:
	movq	%rdi, %r12
	movq	224(%rsp), %r13
	leaq	64(%rsp), %rdi
	movq	%rsi, %r15
	movq	%r14, %rsi
	movq	%rbx, %rdx
	callq	hll_sketch.sketch.HllSketch.deserialize.8a2f8b2564a2651f
	movq	%r15, %rax
	movq	24(%r15), %rdi
	movq	%r14, 24(%r15)
	movq	%rbx, 32(%r15)
	cmpq	$0, 40(%r15)
	movq	%r13, 40(%r15)
	je	.LBB37d7e3d0_153
	callq	rattle_dealloc@PLT
	movq	%r15, %rax
.LBB37d7e3d0_153:
	cmpb	$0, 64(%rsp)
	je	.LBB37d7e3d0_161
	movzbl	65(%rsp), %eax
	xorl	%r15d, %r15d
	cmpb	$12, %al
	cmovnel	%eax, %r15d
	sete	%bl
	addb	%bl, %bl
	addb	$3, %bl
	movb	$1, %bpl
	movq	%r12, %rdi
	jmp	.LBB37d7e3d0_4
.LBB37d7e3d0_156:
	movq	(%r15), %xmm0
	movdqa	.LCPI37d7e3d0_1(%rip), %xmm1
	paddb	%xmm0, %xmm1
	movdqa	.LCPI37d7e3d0_2(%rip), %xmm2
	pmaxub	%xmm1, %xmm2
	pcmpeqb	%xmm1, %xmm2
	pmovmskb	%xmm2, %eax
	notl	%eax
	orl	$256, %eax
	psubusb	.LCPI37d7e3d0_3(%rip), %xmm0
	rep		bsfl	%eax, %r8d
	movl	%r8d, %eax
	shll	$2, %eax
	leaq	.Lstatic.2(%rip), %rcx
	subq	%rax, %rcx
	movdqu	32(%rcx), %xmm1
	movdqu	48(%rcx), %xmm2
	pmovzxbd	%xmm0, %xmm3
	pmulld	%xmm1, %xmm3
	pshufd	$85, %xmm0, %xmm0
	pmovzxbd	%xmm0, %xmm0
	pmulld	%xmm2, %xmm0
	phaddd	%xmm0, %xmm3
	pshufd	$238, %xmm3, %xmm0
	paddd	%xmm3, %xmm0
	pshufd	$85, %xmm0, %xmm1
	paddd	%xmm0, %xmm1
	movd	%xmm1, %eax
	jmp	.LBB37d7e3d0_166
.LBB37d7e3d0_158:
	movq	(%r15), %xmm0
	movdqa	.LCPI37d7e3d0_1(%rip), %xmm1
	paddb	%xmm0, %xmm1
	movdqa	.LCPI37d7e3d0_2(%rip), %xmm2
	pmaxub	%xmm1, %xmm2
	pcmpeqb	%xmm1, %xmm2
	pmovmskb	%xmm2, %eax
	notl	%eax
	orl	$256, %eax
	psubusb	.LCPI37d7e3d0_3(%rip), %xmm0
	rep		bsfl	%eax, %eax
	movl	%eax, %ecx
	shll	$2, %ecx
	leaq	.Lstatic.2(%rip), %rdx
	subq	%rcx, %rdx
	movdqu	32(%rdx), %xmm1
	movdqu	48(%rdx), %xmm2
	pmovzxbd	%xmm0, %xmm3
	pmulld	%xmm1, %xmm3
	pshufd	$85, %xmm0, %xmm0
	pmovzxbd	%xmm0, %xmm0
	pmulld	%xmm2, %xmm0
	phaddd	%xmm0, %xmm3
	pshufd	$238, %xmm3, %xmm0
	paddd	%xmm3, %xmm0
	pshufd	$85, %xmm0, %xmm1
	paddd	%xmm0, %xmm1
	movd	%xmm1, %r8d
	xorl	%ecx, %ecx
	testq	%rax, %rax
	jne	.LBB37d7e3d0_176
	jmp	.LBB37d7e3d0_107
.LBB37d7e3d0_160:
	movq	(%r15), %xmm0
	movdqa	.LCPI37d7e3d0_1(%rip), %xmm1
	paddb	%xmm0, %xmm1
	movdqa	.LCPI37d7e3d0_2(%rip), %xmm2
	pmaxub	%xmm1, %xmm2
	pcmpeqb	%xmm1, %xmm2
	pmovmskb	%xmm2, %eax
	notl	%eax
	orl	$256, %eax
	psubusb	.LCPI37d7e3d0_3(%rip), %xmm0
	rep		bsfl	%eax, %r9d
	movl	%r9d, %eax
	shll	$2, %eax
	leaq	.Lstatic.2(%rip), %rcx
	subq	%rax, %rcx
	movdqu	32(%rcx), %xmm1
	movdqu	48(%rcx), %xmm2
	pmovzxbd	%xmm0, %xmm3
	pmulld	%xmm1, %xmm3
	pshufd	$85, %xmm0, %xmm0
	pmovzxbd	%xmm0, %xmm0
	pmulld	%xmm2, %xmm0
	phaddd	%xmm0, %xmm3
	pshufd	$238, %xmm3, %xmm0
	paddd	%xmm3, %xmm0
	pshufd	$85, %xmm0, %xmm1
	paddd	%xmm0, %xmm1
	movd	%xmm1, %eax
	xorl	%ecx, %ecx
	testq	%r9, %r9
	jne	.LBB37d7e3d0_184
	jmp	.LBB37d7e3d0_107
.LBB37d7e3d0_161:
	movzbl	72(%rsp), %ebp
	leaq	88(%rsp), %rbx
	movzbl	80(%rsp), %r14d
	movq	8(%rax), %rcx
	cmpq	%rcx, 16(%rax)
	movq	%r12, %rdi
	je	.LBB37d7e3d0_230
.LBB37d7e3d0_162:
	movq	(%rax), %rdx
	leaq	(%rcx,%rcx,2), %rsi
	shlq	$5, %rsi
	movb	%bpl, (%rdx,%rsi)
	movq	%r14, 8(%rdx,%rsi)
	movups	(%rbx), %xmm0
	movdqu	16(%rbx), %xmm1
	movdqu	32(%rbx), %xmm2
	movdqu	48(%rbx), %xmm3
	movups	%xmm0, 16(%rdx,%rsi)
	movdqu	%xmm1, 32(%rdx,%rsi)
	movdqu	%xmm2, 48(%rdx,%rsi)
	movdqu	%xmm3, 64(%rdx,%rsi)
	movdqu	64(%rbx), %xmm0
.LBB37d7e3d0_163:
	movdqu	%xmm0, 80(%rdx,%rsi)
	incq	%rcx
	movq	%rcx, 8(%rax)
	jmp	.LBB37d7e3d0_2
.LBB37d7e3d0_164:
	movq	(%r15), %xmm0
	movdqa	.LCPI37d7e3d0_1(%rip), %xmm1
	paddb	%xmm0, %xmm1
	movdqa	.LCPI37d7e3d0_2(%rip), %xmm2
	pmaxub	%xmm1, %xmm2
	pcmpeqb	%xmm1, %xmm2
	pmovmskb	%xmm2, %eax
	notl	%eax
	orl	$256, %eax
	psubusb	.LCPI37d7e3d0_3(%rip), %xmm0
	rep		bsfl	%eax, %r9d
	movl	%r9d, %eax
	shll	$2, %eax
	leaq	.Lstatic.2(%rip), %rcx
	subq	%rax, %rcx
	movdqu	32(%rcx), %xmm1
	movdqu	48(%rcx), %xmm2
	pmovzxbd	%xmm0, %xmm3
	pmulld	%xmm1, %xmm3
	pshufd	$85, %xmm0, %xmm0
	pmovzxbd	%xmm0, %xmm0
	pmulld	%xmm2, %xmm0
	phaddd	%xmm0, %xmm3
	pshufd	$238, %xmm3, %xmm0
	paddd	%xmm3, %xmm0
	pshufd	$85, %xmm0, %xmm1
	paddd	%xmm0, %xmm1
	movd	%xmm1, %eax
	xorl	%ecx, %ecx
	testq	%r9, %r9
	jne	.LBB37d7e3d0_201
	jmp	.LBB37d7e3d0_107
.LBB37d7e3d0_165:
	xorl	%r8d, %r8d
.LBB37d7e3d0_166:
	xorl	%ecx, %ecx
	testq	%r8, %r8
	je	.LBB37d7e3d0_107
	cmpq	%rdx, %r8
	je	.LBB37d7e3d0_107
	cmpb	$32, (%r15,%r8)
	jne	.LBB37d7e3d0_106
	leaq	(%r15,%r8), %r9
	incq	%r9
	incq	%r8
	movq	%r12, %rsi
	subq	%r8, %rsi
	cmpq	$7, %rsi
	ja	.LBB37d7e3d0_193
	xorl	%edx, %edx
	movl	$0, %ecx
	cmpq	%r8, %r12
	je	.LBB37d7e3d0_107
	xorl	%r8d, %r8d
.LBB37d7e3d0_172:
	movzbl	(%r9,%r8), %ecx
	addb	$-48, %cl
	cmpb	$9, %cl
	ja	.LBB37d7e3d0_194
	leal	(%rdx,%rdx,4), %edx
	movzbl	%cl, %ecx
	leal	(%rcx,%rdx,2), %edx
	incq	%r8
	cmpq	%r8, %rsi
	jne	.LBB37d7e3d0_172
	jmp	.LBB37d7e3d0_196
.LBB37d7e3d0_174:
	xorl	%eax, %eax
.LBB37d7e3d0_175:
	xorl	%ecx, %ecx
	testq	%rax, %rax
	je	.LBB37d7e3d0_107
.LBB37d7e3d0_176:
	cmpq	%rsi, %rax
	jne	.LBB37d7e3d0_107
.LBB37d7e3d0_177:
	leal	-4(%r8), %eax
	movb	$1, %cl
	cmpl	$17, %eax
	ja	.LBB37d7e3d0_107
.LBB37d7e3d0_178:
	shll	$8, %r8d
	orl	$4, %r8d
	xorl	%ecx, %ecx
	xorl	%eax, %eax
	xorl	%edx, %edx
.LBB37d7e3d0_179:
	movl	%edx, %esi
	shlq	$32, %rax
	orq	%r8, %rax
	orq	%rcx, %rsi
	movl	%eax, %r13d
	shrl	$8, %r13d
	movl	%eax, %r14d
	shrl	$16, %r14d
	movq	%rax, %rdx
	shrq	$32, %rdx
	movl	%esi, %r9d
	shrl	$8, %r9d
	movzbl	%al, %eax
	leaq	.LJTI37d7e3d0_1(%rip), %rcx
	movslq	(%rcx,%rax,4), %rax
	addq	%rcx, %rax
	movl	%esi, %r12d
	movq	%rbx, %r8
	jmpq	*%rax
.LBB37d7e3d0_180:
	leal	-22(%r13), %eax
	movb	$1, %bpl
	cmpb	$-18, %al
	jae	.LBB37d7e3d0_217
	movb	$11, %r15b
	movb	$3, %bl
	jmp	.LBB37d7e3d0_4
.LBB37d7e3d0_182:
	xorl	%r9d, %r9d
.LBB37d7e3d0_183:
	xorl	%ecx, %ecx
	testq	%r9, %r9
	je	.LBB37d7e3d0_107
.LBB37d7e3d0_184:
	cmpq	%rdx, %r9
	je	.LBB37d7e3d0_107
	cmpb	$32, (%r15,%r9)
	jne	.LBB37d7e3d0_106
	leaq	(%r15,%r9), %r8
	incq	%r8
	incq	%r9
	movq	16(%rsp), %r10
	movq	%r10, %rsi
	subq	%r9, %rsi
	cmpq	$7, %rsi
	ja	.LBB37d7e3d0_208
	xorl	%edx, %edx
	movl	$0, %ecx
	cmpq	%r9, %r10
	je	.LBB37d7e3d0_107
	xorl	%r9d, %r9d
.LBB37d7e3d0_189:
	movzbl	(%r8,%r9), %ecx
	addb	$-48, %cl
	cmpb	$9, %cl
	ja	.LBB37d7e3d0_209
	leal	(%rdx,%rdx,4), %edx
	movzbl	%cl, %ecx
	leal	(%rcx,%rdx,2), %edx
	incq	%r9
	xorl	%ecx, %ecx
	cmpq	%r9, %rsi
	jne	.LBB37d7e3d0_189
	jmp	.LBB37d7e3d0_107
.LBB37d7e3d0_191:
	movq	%r10, 16(%rsp)
	movq	%rsi, %r13
	movq	%rdi, %r12
	leaq	208(%rsp), %rdi
	movq	%rdx, %rbp
	movq	%rdx, %rsi
	callq	std_alloc.vec.Vec.grow_amortized.e3d5df6901cfba47
	testb	%al, %al
	je	.LBB37d7e3d0_219
	movq	216(%rsp), %rax
	movq	224(%rsp), %r14
	movq	%r12, %rdi
	movq	%r13, %rsi
	movq	%rbp, %rdx
	movq	16(%rsp), %r10
	leaq	(%rax,%rdx), %r12
	cmpq	%r12, %rax
	jb	.LBB37d7e3d0_26
	jmp	.LBB37d7e3d0_27
.LBB37d7e3d0_193:
	movq	(%r9), %xmm0
	movdqa	.LCPI37d7e3d0_1(%rip), %xmm1
	paddb	%xmm0, %xmm1
	movdqa	.LCPI37d7e3d0_2(%rip), %xmm2
	pmaxub	%xmm1, %xmm2
	pcmpeqb	%xmm1, %xmm2
	pmovmskb	%xmm2, %ecx
	notl	%ecx
	orl	$256, %ecx
	psubusb	.LCPI37d7e3d0_3(%rip), %xmm0
	rep		bsfl	%ecx, %r8d
	movl	%r8d, %ecx
	shll	$2, %ecx
	leaq	.Lstatic.2(%rip), %rdx
	subq	%rcx, %rdx
	movdqu	32(%rdx), %xmm1
	movdqu	48(%rdx), %xmm2
	pmovzxbd	%xmm0, %xmm3
	pmulld	%xmm1, %xmm3
	pshufd	$85, %xmm0, %xmm0
	pmovzxbd	%xmm0, %xmm0
	pmulld	%xmm2, %xmm0
	phaddd	%xmm0, %xmm3
	pshufd	$238, %xmm3, %xmm0
	paddd	%xmm3, %xmm0
	pshufd	$85, %xmm0, %xmm1
	paddd	%xmm0, %xmm1
	movd	%xmm1, %edx
.LBB37d7e3d0_194:
	xorl	%ecx, %ecx
	testq	%r8, %r8
	je	.LBB37d7e3d0_107
	cmpq	%rsi, %r8
	jne	.LBB37d7e3d0_107
.LBB37d7e3d0_196:
	movb	$1, %cl
	cmpl	$67108863, %eax
	ja	.LBB37d7e3d0_107
	leal	-64(%rdx), %esi
	cmpl	$-63, %esi
	jb	.LBB37d7e3d0_107
	xorl	%ecx, %ecx
	movl	$2, %r8d
	jmp	.LBB37d7e3d0_179
.LBB37d7e3d0_199:
	xorl	%r9d, %r9d
.LBB37d7e3d0_200:
	xorl	%ecx, %ecx
	testq	%r9, %r9
	je	.LBB37d7e3d0_107
.LBB37d7e3d0_201:
	cmpq	%r12, %r9
	je	.LBB37d7e3d0_107
	cmpb	$32, (%r15,%r9)
	jne	.LBB37d7e3d0_106
	movq	%rsi, %r8
	movq	%r12, %r11
	leaq	(%r15,%r9), %r10
	incq	%r10
	incq	%r9
	movq	%r12, %rdx
	subq	%r9, %rdx
	cmpq	$7, %rdx
	ja	.LBB37d7e3d0_222
	xorl	%esi, %esi
	movl	$0, %ecx
	cmpq	%r9, %r11
	je	.LBB37d7e3d0_107
	xorl	%r9d, %r9d
.LBB37d7e3d0_206:
	movzbl	(%r10,%r9), %ecx
	addb	$-48, %cl
	cmpb	$9, %cl
	ja	.LBB37d7e3d0_223
	leal	(%rsi,%rsi,4), %esi
	movzbl	%cl, %ecx
	leal	(%rcx,%rsi,2), %esi
	incq	%r9
	cmpq	%r9, %rdx
	jne	.LBB37d7e3d0_206
	jmp	.LBB37d7e3d0_225
.LBB37d7e3d0_208:
	movq	(%r8), %xmm0
	movdqa	.LCPI37d7e3d0_1(%rip), %xmm1
	paddb	%xmm0, %xmm1
	movdqa	.LCPI37d7e3d0_2(%rip), %xmm2
	pmaxub	%xmm1, %xmm2
	pcmpeqb	%xmm1, %xmm2
	pmovmskb	%xmm2, %ecx
	notl	%ecx
	orl	$256, %ecx
	psubusb	.LCPI37d7e3d0_3(%rip), %xmm0
	rep		bsfl	%ecx, %r9d
	movl	%r9d, %ecx
	shll	$2, %ecx
	leaq	.Lstatic.2(%rip), %rdx
	subq	%rcx, %rdx
	movdqu	32(%rdx), %xmm1
	movdqu	48(%rdx), %xmm2
	pmovzxbd	%xmm0, %xmm3
	pmulld	%xmm1, %xmm3
	pshufd	$85, %xmm0, %xmm0
	pmovzxbd	%xmm0, %xmm0
	pmulld	%xmm2, %xmm0
	phaddd	%xmm0, %xmm3
	pshufd	$238, %xmm3, %xmm0
	paddd	%xmm3, %xmm0
	pshufd	$85, %xmm0, %xmm1
	paddd	%xmm0, %xmm1
	movd	%xmm1, %edx
.LBB37d7e3d0_209:
	xorl	%ecx, %ecx
	testq	%r9, %r9
	je	.LBB37d7e3d0_107
	cmpq	%rsi, %r9
	je	.LBB37d7e3d0_107
	cmpb	$32, (%r8,%r9)
	jne	.LBB37d7e3d0_106
	leaq	(%r8,%r9), %r11
	incq	%r11
	incq	%r9
	movq	%rsi, %r8
	subq	%r9, %r8
	cmpq	$7, %r8
	ja	.LBB37d7e3d0_232
	xorl	%r10d, %r10d
	movl	$0, %ecx
	cmpq	%r9, %rsi
	je	.LBB37d7e3d0_107
	xorl	%esi, %esi
.LBB37d7e3d0_215:
	movzbl	(%r11,%rsi), %ecx
	addb	$-48, %cl
	cmpb	$9, %cl
	ja	.LBB37d7e3d0_233
	leal	(%r10,%r10,4), %edi
	movzbl	%cl, %ecx
	leal	(%rcx,%rdi,2), %r10d
	incq	%rsi
	cmpq	%rsi, %r8
	jne	.LBB37d7e3d0_215
	jmp	.LBB37d7e3d0_235
.LBB37d7e3d0_217:
	movq	8(%r8), %rax
	cmpq	%rax, 16(%r8)
	je	.LBB37d7e3d0_579
.LBB37d7e3d0_218:
	movq	(%r8), %rcx
	leaq	(%rax,%rax,2), %rdx
	shlq	$5, %rdx
	movb	%r13b, (%rcx,%rdx)
	movq	$0, 8(%rcx,%rdx)
	movq	$3, 16(%rcx,%rdx)
	pxor	%xmm0, %xmm0
	movdqu	%xmm0, 24(%rcx,%rdx)
	movdqu	%xmm0, 40(%rcx,%rdx)
	movdqu	%xmm0, 56(%rcx,%rdx)
	movb	%r14b, 72(%rcx,%rdx)
	movdqu	%xmm0, 73(%rcx,%rdx)
	movq	$0, 88(%rcx,%rdx)
	incq	%rax
	movq	%rax, 8(%r8)
	jmp	.LBB37d7e3d0_2
.LBB37d7e3d0_219:
	movb	$5, %bl
	cmpq	$0, 224(%rsp)
	je	.LBB37d7e3d0_221
	movq	208(%rsp), %rdi
	callq	rattle_dealloc@PLT
.LBB37d7e3d0_221:
	movq	%r12, %rdi
	jmp	.LBB37d7e3d0_133
.LBB37d7e3d0_222:
	movq	(%r10), %xmm0
	movdqa	.LCPI37d7e3d0_1(%rip), %xmm1
	paddb	%xmm0, %xmm1
	movdqa	.LCPI37d7e3d0_2(%rip), %xmm2
	pmaxub	%xmm1, %xmm2
	pcmpeqb	%xmm1, %xmm2
	pmovmskb	%xmm2, %ecx
	notl	%ecx
	orl	$256, %ecx
	psubusb	.LCPI37d7e3d0_3(%rip), %xmm0
	rep		bsfl	%ecx, %r9d
	movl	%r9d, %ecx
	shll	$2, %ecx
	leaq	.Lstatic.2(%rip), %rsi
	subq	%rcx, %rsi
	movdqu	32(%rsi), %xmm1
	movdqu	48(%rsi), %xmm2
	pmovzxbd	%xmm0, %xmm3
	pmulld	%xmm1, %xmm3
	pshufd	$85, %xmm0, %xmm0
	pmovzxbd	%xmm0, %xmm0
	pmulld	%xmm2, %xmm0
	phaddd	%xmm0, %xmm3
	pshufd	$238, %xmm3, %xmm0
	paddd	%xmm3, %xmm0
	pshufd	$85, %xmm0, %xmm1
	paddd	%xmm0, %xmm1
	movd	%xmm1, %esi
.LBB37d7e3d0_223:
	xorl	%ecx, %ecx
	testq	%r9, %r9
	je	.LBB37d7e3d0_107
	cmpq	%rdx, %r9
	jne	.LBB37d7e3d0_107
.LBB37d7e3d0_225:
	leal	-4(%rax), %edx
	movb	$1, %cl
	cmpl	$17, %edx
	ja	.LBB37d7e3d0_107
	cmpl	$4, %esi
	je	.LBB37d7e3d0_246
	cmpl	$8, %esi
	je	.LBB37d7e3d0_245
	cmpl	$6, %esi
	jne	.LBB37d7e3d0_107
	movl	$65536, %ecx
	jmp	.LBB37d7e3d0_247
.LBB37d7e3d0_230:
	movq	%rax, %rdi
	callq	std_alloc.vec.Vec.grow_amortized.f10ba080d3fae16a
	testb	%al, %al
	je	.LBB37d7e3d0_240
	movq	%r15, %rax
	movq	8(%r15), %rcx
	movq	%r12, %rdi
	jmp	.LBB37d7e3d0_162
.LBB37d7e3d0_232:
	movq	(%r11), %xmm0
	movdqa	.LCPI37d7e3d0_1(%rip), %xmm1
	paddb	%xmm0, %xmm1
	movdqa	.LCPI37d7e3d0_2(%rip), %xmm2
	pmaxub	%xmm1, %xmm2
	pcmpeqb	%xmm1, %xmm2
	pmovmskb	%xmm2, %ecx
	notl	%ecx
	orl	$256, %ecx
	psubusb	.LCPI37d7e3d0_3(%rip), %xmm0
	rep		bsfl	%ecx, %esi
	movl	%esi, %ecx
	shll	$2, %ecx
	leaq	.Lstatic.2(%rip), %rdi
	subq	%rcx, %rdi
	movdqu	32(%rdi), %xmm1
	movdqu	48(%rdi), %xmm2
	pmovzxbd	%xmm0, %xmm3
	pmulld	%xmm1, %xmm3
	pshufd	$85, %xmm0, %xmm0
	pmovzxbd	%xmm0, %xmm0
	pmulld	%xmm2, %xmm0
	phaddd	%xmm0, %xmm3
	pshufd	$238, %xmm3, %xmm0
	paddd	%xmm3, %xmm0
	pshufd	$85, %xmm0, %xmm1
	paddd	%xmm0, %xmm1
	movd	%xmm1, %r10d
.LBB37d7e3d0_233:
	xorl	%ecx, %ecx
	testq	%rsi, %rsi
	je	.LBB37d7e3d0_155
	cmpq	%r8, %rsi
	movq	%r14, %rdi
	jne	.LBB37d7e3d0_107
.LBB37d7e3d0_235:
	leal	-4(%rdx), %esi
	movb	$1, %cl
	cmpl	$17, %esi
	ja	.LBB37d7e3d0_155
	movl	$3, %r8d
	cmpl	$4, %r10d
	je	.LBB37d7e3d0_649
	cmpl	$8, %r10d
	je	.LBB37d7e3d0_648
	cmpl	$6, %r10d
	movq	%r14, %rdi
	jne	.LBB37d7e3d0_107
	movl	$256, %ecx
	jmp	.LBB37d7e3d0_179
.LBB37d7e3d0_155:
	movq	%r14, %rdi
	jmp	.LBB37d7e3d0_107
.LBB37d7e3d0_240:
	movups	64(%rbx), %xmm0
	movups	%xmm0, 280(%rsp)
	movdqu	(%rbx), %xmm0
	movdqu	16(%rbx), %xmm1
	movdqu	32(%rbx), %xmm2
	movdqu	48(%rbx), %xmm3
	movdqu	%xmm3, 264(%rsp)
	movdqu	%xmm2, 248(%rsp)
	movdqu	%xmm1, 232(%rsp)
	movdqu	%xmm0, 216(%rsp)
	movq	%r14, 208(%rsp)
	leaq	208(%rsp), %rdi
	callq	hll_sketch.mode.Mode.drop.309f015d8caa795c
	movb	$5, %bl
	movb	$1, %bpl
.LBB37d7e3d0_241:
	xorl	%r15d, %r15d
	movq	%r12, %rdi
	jmp	.LBB37d7e3d0_4
.LBB37d7e3d0_242:
	movzbl	3(%r15), %ecx
	addb	$-48, %cl
	movl	$3, %eax
	cmpb	$9, %cl
	ja	.LBB37d7e3d0_845
	leal	(%r8,%r8,4), %eax
	movzbl	%cl, %ecx
	leal	(%rcx,%rax,2), %r8d
	cmpq	$4, %r12
	je	.LBB37d7e3d0_104
	movzbl	4(%r15), %ecx
	addb	$-48, %cl
	movl	$4, %eax
	cmpb	$9, %cl
	ja	.LBB37d7e3d0_845
	leal	(%r8,%r8,4), %eax
	movzbl	%cl, %ecx
	leal	(%rcx,%rax,2), %r8d
	cmpq	$5, %r12
	je	.LBB37d7e3d0_104
	movzbl	5(%r15), %ecx
	addb	$-48, %cl
	movl	$5, %eax
	cmpb	$9, %cl
	ja	.LBB37d7e3d0_845
	leal	(%r8,%r8,4), %eax
	movzbl	%cl, %ecx
	leal	(%rcx,%rax,2), %r8d
	cmpq	$6, %r12
	je	.LBB37d7e3d0_104
	movzbl	6(%r15), %ecx
	addb	$-48, %cl
	movl	$6, %eax
	cmpb	$9, %cl
	ja	.LBB37d7e3d0_845
	leal	(%r8,%r8,4), %eax
	movzbl	%cl, %ecx
	leal	(%rcx,%rax,2), %r8d
	movq	%r14, %rdi
	leal	-4(%r8), %eax
	movb	$1, %cl
	cmpl	$17, %eax
	ja	.LBB37d7e3d0_107
	jmp	.LBB37d7e3d0_178
.LBB37d7e3d0_245:
	movl	$131072, %ecx
	jmp	.LBB37d7e3d0_247
.LBB37d7e3d0_246:
	xorl	%ecx, %ecx
.LBB37d7e3d0_247:
	shll	$8, %eax
	orq	%rcx, %rax
	xorl	%esi, %esi
	movl	%eax, %r13d
	shrl	$8, %r13d
	movl	%eax, %r14d
	shrl	$16, %r14d
	movq	%rax, %rdx
	shrq	$32, %rdx
	xorl	%r9d, %r9d
	shrl	$8, %r9d
	movzbl	%al, %eax
	leaq	.LJTI37d7e3d0_1(%rip), %rcx
	movslq	(%rcx,%rax,4), %rax
	addq	%rcx, %rax
	xorl	%r12d, %r12d
	jmpq	*%rax
.LBB37d7e3d0_248:
	movq	%r8, %rbx
	movq	%rdi, %r14
	pxor	%xmm0, %xmm0
	movdqa	%xmm0, 144(%rsp)
	movdqa	%xmm0, 128(%rsp)
	movdqa	%xmm0, 112(%rsp)
	movdqa	%xmm0, 96(%rsp)
	movdqa	%xmm0, 80(%rsp)
	movdqa	%xmm0, 64(%rsp)
	movq	$0, 160(%rsp)
	xorl	%r15d, %r15d
	leaq	64(%rsp), %rdi
	xorl	%edx, %edx
	callq	hll_sketch.sketch.HllSketch.deserialize.8a2f8b2564a2651f
	cmpb	$0, 64(%rsp)
	je	.LBB37d7e3d0_268
	movzbl	65(%rsp), %eax
	cmpb	$12, %al
	cmovnel	%eax, %r15d
	sete	%bl
	addb	%bl, %bl
	addb	$3, %bl
	movb	$1, %bpl
	movq	%r14, %rdi
	jmp	.LBB37d7e3d0_4
.LBB37d7e3d0_250:
	pxor	%xmm0, %xmm0
	movdqa	%xmm0, 880(%rsp)
	movdqa	%xmm0, 896(%rsp)
	movdqa	%xmm0, 912(%rsp)
	movdqa	%xmm0, 928(%rsp)
	movdqa	%xmm0, 944(%rsp)
	movdqa	%xmm0, 768(%rsp)
	movdqa	%xmm0, 784(%rsp)
	movdqa	%xmm0, 800(%rsp)
	movdqa	%xmm0, 816(%rsp)
	movdqa	%xmm0, 832(%rsp)
	movdqa	%xmm0, 672(%rsp)
	movdqa	%xmm0, 688(%rsp)
	movdqa	%xmm0, 704(%rsp)
	movdqa	%xmm0, 720(%rsp)
	movdqa	%xmm0, 736(%rsp)
	movq	$0, 752(%rsp)
	movq	8(%r8), %rax
	movb	$1, %bpl
	testq	%rax, %rax
	je	.LBB37d7e3d0_260
	movq	(%r8), %rcx
	leaq	(%rax,%rax,2), %rax
	shlq	$5, %rax
	leaq	(%rcx,%rax), %r12
	movzbl	-96(%rcx,%rax), %eax
	cmpb	%r13b, %al
	jae	.LBB37d7e3d0_270
	movb	$8, %bl
	jmp	.LBB37d7e3d0_3
.LBB37d7e3d0_253:
	movq	8(%r8), %rcx
	movb	$1, %bpl
	testq	%rcx, %rcx
	je	.LBB37d7e3d0_260
	movl	%esi, %eax
	shll	$26, %eax
	movq	%rdx, %r9
	andl	$67108863, %edx
	orl	%edx, %eax
	movq	(%r8), %r8
	leaq	(%rcx,%rcx,2), %rcx
	shlq	$5, %rcx
	leaq	(%r8,%rcx), %rbx
	movzbl	-88(%r8,%rcx), %ecx
	leaq	.LJTI37d7e3d0_12(%rip), %r8
	movslq	(%r8,%rcx,4), %rcx
	addq	%r8, %rcx
	jmpq	*%rcx
.LBB37d7e3d0_255:
	movq	%rdi, %r14
	addq	$-96, %rbx
	movq	%rbx, %rdi
	movl	%eax, %esi
	callq	hll_sketch.sketch.HllSketch.update_table.8a2f8b2564a2651f
	testb	%al, %al
	je	.LBB37d7e3d0_287
	movq	%r14, %rdi
.LBB37d7e3d0_257:
	xorl	%eax, %eax
	cmpb	$12, %dl
	sete	%bl
	movzbl	%dl, %r15d
	jmp	.LBB37d7e3d0_840
.LBB37d7e3d0_258:
	movq	%r9, 384(%rsp)
	movq	8(%r8), %rax
	xorl	%r15d, %r15d
	movq	%rax, 432(%rsp)
	subq	%rdx, %rax
	movl	$0, %ecx
	cmovaeq	%rax, %rcx
	jae	.LBB37d7e3d0_261
	movb	$4, %bl
	movb	$1, %bpl
	jmp	.LBB37d7e3d0_4
.LBB37d7e3d0_260:
	movb	$4, %bl
	jmp	.LBB37d7e3d0_3
.LBB37d7e3d0_261:
	movq	%rcx, %rax
	movq	%rdx, 1056(%rsp)
	leaq	8(%r8), %rcx
	movq	%rcx, 848(%rsp)
	movq	%rax, 408(%rsp)
	shlq	$5, %rax
	movq	(%r8), %rbp
	leaq	(%rax,%rax,2), %rax
	movq	%rax, 376(%rsp)
	movq	384(%rsp), %rsi
	cmpl	$2, %esi
	jne	.LBB37d7e3d0_265
	movq	432(%rsp), %rax
	cmpq	408(%rsp), %rax
	je	.LBB37d7e3d0_265
	movq	376(%rsp), %rax
	addq	%rbp, %rax
	cmpb	$4, 8(%rax)
	jne	.LBB37d7e3d0_265
	movzbl	(%rax), %ebx
	cmpb	%r12b, %bl
	jbe	.LBB37d7e3d0_571
.LBB37d7e3d0_265:
	movq	$0, 416(%rsp)
	movl	$0, 424(%rsp)
	pxor	%xmm0, %xmm0
	movdqa	%xmm0, 576(%rsp)
	movq	$0, 591(%rsp)
	movq	$0, 656(%rsp)
	movl	$0, 664(%rsp)
	movdqa	%xmm0, 624(%rsp)
	movq	$0, 639(%rsp)
	movdqa	%xmm0, 64(%rsp)
	movdqa	%xmm0, 672(%rsp)
	movdqa	%xmm0, 688(%rsp)
	movdqa	%xmm0, 704(%rsp)
	movdqa	%xmm0, 720(%rsp)
	movdqa	%xmm0, 736(%rsp)
	movq	$0, 752(%rsp)
	movdqa	%xmm0, 960(%rsp)
	movdqa	%xmm0, 976(%rsp)
	movdqa	%xmm0, 992(%rsp)
	movdqa	%xmm0, 1008(%rsp)
	movdqa	%xmm0, 1024(%rsp)
	movq	$0, 1040(%rsp)
	leal	-22(%r12), %eax
	movb	$11, %r14b
	cmpb	$-18, %al
	jb	.LBB37d7e3d0_853
	movq	432(%rsp), %r9
	movb	%r12b, 64(%rsp)
	movb	%r12b, 72(%rsp)
	movq	$0, 80(%rsp)
	movq	$3, 88(%rsp)
	movdqa	%xmm0, 96(%rsp)
	movdqa	%xmm0, 112(%rsp)
	movdqa	%xmm0, 128(%rsp)
	movb	$2, 144(%rsp)
	movdqu	%xmm0, 145(%rsp)
	movq	$0, 160(%rsp)
	subq	408(%rsp), %r9
	movq	%rdi, 32(%rsp)
	movq	%r8, 176(%rsp)
	je	.LBB37d7e3d0_289
	addq	376(%rsp), %rbp
	jmp	.LBB37d7e3d0_294
.LBB37d7e3d0_268:
	movzbl	72(%rsp), %ebp
	movzbl	80(%rsp), %r12d
	leaq	88(%rsp), %r15
	movq	%rbx, %rax
	movq	8(%rbx), %rcx
	cmpq	%rcx, 16(%rbx)
	movq	%r14, %rdi
	je	.LBB37d7e3d0_601
.LBB37d7e3d0_269:
	movq	(%rax), %rdx
	leaq	(%rcx,%rcx,2), %rsi
	shlq	$5, %rsi
	movb	%bpl, (%rdx,%rsi)
	movq	%r12, 8(%rdx,%rsi)
	movups	(%r15), %xmm0
	movdqu	16(%r15), %xmm1
	movdqu	32(%r15), %xmm2
	movdqu	48(%r15), %xmm3
	movups	%xmm0, 16(%rdx,%rsi)
	movdqu	%xmm1, 32(%rdx,%rsi)
	movdqu	%xmm2, 48(%rdx,%rsi)
	movdqu	%xmm3, 64(%rdx,%rsi)
	movdqu	64(%r15), %xmm0
	jmp	.LBB37d7e3d0_163
.LBB37d7e3d0_270:
	jne	.LBB37d7e3d0_668
	movzbl	-88(%r12), %ecx
	leal	-2(%rcx), %edx
	cmpl	$3, %edx
	jb	.LBB37d7e3d0_2
	cmpl	$1, %ecx
	jne	.LBB37d7e3d0_573
	movq	-72(%r12), %rdx
	movb	$3, %cl
	cmpq	$8, %rdx
	jb	.LBB37d7e3d0_667
	leal	1(%r13), %ecx
	xorl	%esi, %esi
	subb	$3, %cl
	movzbl	%cl, %ecx
	cmovbl	%esi, %ecx
	cmpb	$6, %cl
	jb	.LBB37d7e3d0_668
	movzbl	%cl, %esi
	leaq	-5(%rsi), %r8
	movl	$5, %ecx
	cmpq	$64, %r8
	jae	.LBB37d7e3d0_657
.LBB37d7e3d0_276:
	movl	$3, %r8d
	shlq	%cl, %r8
	shrq	$2, %r8
	cmpq	%r8, %rdx
	jbe	.LBB37d7e3d0_667
	incq	%rcx
	cmpq	%rcx, %rsi
	jne	.LBB37d7e3d0_276
	jmp	.LBB37d7e3d0_668
.LBB37d7e3d0_278:
	movzbl	-80(%rbx), %ecx
	movq	$-1, %rax
	shlq	%cl, %rax
	notl	%eax
	andl	%r9d, %eax
	andl	$67108863, %eax
	movq	-64(%rbx), %rcx
	movzbl	(%rcx,%rax), %edx
	andb	$63, %r12b
	cmpb	%r12b, %dl
	jae	.LBB37d7e3d0_2
	movzbl	-76(%rbx), %esi
	cmpl	$1, %esi
	sete	%r8b
	testb	%dl, %dl
	sete	%dl
	andb	%r8b, %dl
	movzbl	%dl, %edx
	movl	%esi, -76(%rbx)
	subl	%edx, -72(%rbx)
	movb	%r12b, (%rcx,%rax)
	pxor	%xmm0, %xmm0
	movdqu	%xmm0, -40(%rbx)
	movq	$0, -24(%rbx)
	movb	$1, -16(%rbx)
	movl	$0, -15(%rbx)
	movl	$0, -12(%rbx)
	jmp	.LBB37d7e3d0_2
.LBB37d7e3d0_280:
	movzbl	-80(%rbx), %ecx
	cmpq	$31, %rcx
	ja	.LBB37d7e3d0_631
	movl	$1, %eax
	shlq	%cl, %rax
	decl	%eax
	andl	%edx, %eax
	andl	$63, %esi
	movq	-72(%rbx), %r11
	movl	%eax, %r8d
	shrl	%r8d
	movzbl	(%r11,%r8), %r9d
	movl	%r9d, %r10d
	andb	$15, %r10b
	movl	%r9d, %ecx
	shrb	$4, %cl
	testb	$1, %al
	movzbl	%r10b, %edx
	movzbl	%cl, %r14d
	cmovel	%edx, %r14d
	cmpb	$15, %r14b
	movq	%rdi, 32(%rsp)
	movq	%r11, 16(%rsp)
	jne	.LBB37d7e3d0_565
	cmpb	$1, -48(%rbx)
	jne	.LBB37d7e3d0_631
	movq	-40(%rbx), %rdi
	movzbl	24(%rdi), %ecx
	movb	%cl, 176(%rsp)
	testb	%cl, %cl
	je	.LBB37d7e3d0_591
	movq	40(%rdi), %r13
	testq	%r13, %r13
	je	.LBB37d7e3d0_631
	movq	32(%rdi), %r14
	jmp	.LBB37d7e3d0_592
.LBB37d7e3d0_286:
	addq	$-80, %rbx
	movq	%rdi, %r14
	movq	%rbx, %rdi
	movl	%eax, %esi
	callq	hll_arrays.array6.Array6.update.309f015d8caa795c
	movq	%r14, %rdi
	jmp	.LBB37d7e3d0_2
.LBB37d7e3d0_287:
	xorl	%ebp, %ebp
	xorl	%ebx, %ebx
.LBB37d7e3d0_288:
	xorl	%r15d, %r15d
	movq	%r14, %rdi
	jmp	.LBB37d7e3d0_4
.LBB37d7e3d0_289:
	movl	$0, 424(%rsp)
	movq	$0, 416(%rsp)
	movdqa	%xmm0, 576(%rsp)
	movq	$0, 591(%rsp)
	movb	$2, 8(%rsp)
	xorl	%ebp, %ebp
	movl	$3, %eax
	movq	%rax, 48(%rsp)
	xorl	%r13d, %r13d
	xorl	%ebx, %ebx
	xorl	%r14d, %r14d
	movq	$0, 16(%rsp)
	movl	$0, 40(%rsp)
	movb	$2, %al
	jmp	.LBB37d7e3d0_613
.LBB37d7e3d0_290:
	movzbl	497(%rsp), %r14d
.LBB37d7e3d0_291:
	movq	32(%rsp), %rdi
	movq	176(%rsp), %r8
.LBB37d7e3d0_292:
	testb	%al, %al
	jne	.LBB37d7e3d0_578
.LBB37d7e3d0_293:
	movq	%r12, %r9
	movq	%r15, %rbp
	testq	%r12, %r12
	je	.LBB37d7e3d0_566
.LBB37d7e3d0_294:
	leaq	96(%rbp), %r15
	leaq	-1(%r9), %r12
	cmpb	$1, 80(%rsp)
	ja	.LBB37d7e3d0_296
	movq	96(%rsp), %rax
	cmpq	$9, %rax
	jae	.LBB37d7e3d0_299
.LBB37d7e3d0_296:
	movzbl	8(%rbp), %eax
	leaq	.LJTI37d7e3d0_5(%rip), %rcx
	movslq	(%rcx,%rax,4), %rax
	addq	%rcx, %rax
	jmpq	*%rax
.LBB37d7e3d0_297:
	cmpq	$0, 24(%rbp)
	je	.LBB37d7e3d0_293
	leaq	16(%rbp), %rdx
	leaq	64(%rsp), %rax
	movq	%rdi, %rbx
	movq	%rax, %rdi
	movq	%r8, %r14
	movq	%rbp, %rsi
	callq	hll_sketch.union.HllUnion.merge_table.8a2f8b2564a2651f
	movq	%r14, %r8
	movq	%rbx, %rdi
	movl	%edx, %r14d
	jmp	.LBB37d7e3d0_292
.LBB37d7e3d0_299:
	movq	%r12, 40(%rsp)
	movq	%r15, 8(%rsp)
	cmpq	$257, %rax
	movl	$256, %ecx
	cmovaeq	%rax, %rcx
	cmpq	$262143, %rcx
	movl	$262143, %ebx
	cmovbq	%rcx, %rbx
	leaq	4(%rsp), %rax
	movq	%rax, 304(%rsp)
	pxor	%xmm0, %xmm0
	leaq	312(%rsp), %rax
	movdqu	%xmm0, (%rax)
	xorl	%r12d, %r12d
	xorl	%r15d, %r15d
	movq	%r9, 48(%rsp)
	movq	%rbp, 16(%rsp)
	jmp	.LBB37d7e3d0_303
.LBB37d7e3d0_322:
	xorl	%eax, %eax
	xorl	%r14d, %r14d
	movq	%rcx, %r12
	testb	%al, %al
	movq	16(%rsp), %rbp
	jne	.LBB37d7e3d0_568
.LBB37d7e3d0_302:
	incq	%r15
	cmpq	%r9, %r15
	je	.LBB37d7e3d0_346
.LBB37d7e3d0_303:
	cmpq	%r12, %rbx
	jbe	.LBB37d7e3d0_326
	leaq	(%r15,%r15,2), %r14
	shlq	$5, %r14
	addq	%rbp, %r14
	movzbl	8(%r14), %eax
	leaq	.LJTI37d7e3d0_4(%rip), %rcx
	movslq	(%rcx,%rax,4), %rax
	addq	%rcx, %rax
	jmpq	*%rax
.LBB37d7e3d0_305:
	cmpq	$0, 24(%r14)
	je	.LBB37d7e3d0_302
	cmpb	$0, 32(%r14)
	je	.LBB37d7e3d0_314
	movq	48(%r14), %r13
	movq	40(%r14), %r14
	jmp	.LBB37d7e3d0_315
.LBB37d7e3d0_308:
	cmpb	$1, 20(%r14)
	jne	.LBB37d7e3d0_309
	movl	24(%r14), %eax
	jmp	.LBB37d7e3d0_301
.LBB37d7e3d0_310:
	cmpb	$0, 17(%r14)
	jne	.LBB37d7e3d0_326
	movl	20(%r14), %eax
.LBB37d7e3d0_301:
	movzbl	16(%r14), %ecx
	movl	$1, %edx
	shlq	%cl, %rdx
	cmpq	%rax, %rdx
	je	.LBB37d7e3d0_302
	jmp	.LBB37d7e3d0_326
.LBB37d7e3d0_312:
	movq	32(%r14), %rax
	movq	40(%r14), %rcx
	leaq	(%rcx,%rcx,2), %rsi
	jmp	.LBB37d7e3d0_313
.LBB37d7e3d0_309:
	movq	32(%r14), %rax
	movq	40(%r14), %rsi
.LBB37d7e3d0_313:
	movq	%rdi, %r14
	movq	%rax, %rdi
	movq	%r8, %r13
	callq	hll_kernels.kernels.all_zero
	movq	48(%rsp), %r9
	movq	%r13, %r8
	movq	%r14, %rdi
	testb	%al, %al
	jne	.LBB37d7e3d0_302
	jmp	.LBB37d7e3d0_326
.LBB37d7e3d0_314:
	addq	$36, %r14
	movl	$8, %r13d
.LBB37d7e3d0_315:
	movq	%r12, %rcx
.LBB37d7e3d0_316:
	testq	%r13, %r13
	je	.LBB37d7e3d0_322
	decq	%r13
	movl	(%r14), %ebp
	addq	$4, %r14
	testl	%ebp, %ebp
	je	.LBB37d7e3d0_316
	cmpq	%rcx, 320(%rsp)
	je	.LBB37d7e3d0_320
.LBB37d7e3d0_319:
	movq	304(%rsp), %rax
	movl	%ebp, (%rax,%rcx,4)
	incq	%rcx
	movq	%rcx, 312(%rsp)
	jmp	.LBB37d7e3d0_316
.LBB37d7e3d0_320:
	leaq	304(%rsp), %rdi
	movl	$1, %esi
	callq	std_alloc.vec.Vec.grow_amortized.e9163d01fd20791a
	movq	312(%rsp), %rcx
	testb	%al, %al
	je	.LBB37d7e3d0_323
	movq	32(%rsp), %rdi
	movq	176(%rsp), %r8
	movq	48(%rsp), %r9
	jmp	.LBB37d7e3d0_319
.LBB37d7e3d0_323:
	movb	$12, %r14b
	movb	$1, %al
	cmpq	%r12, %rcx
	jbe	.LBB37d7e3d0_325
	movq	%r12, 312(%rsp)
	movq	%r12, %rcx
.LBB37d7e3d0_325:
	movq	32(%rsp), %rdi
	movq	176(%rsp), %r8
	movq	48(%rsp), %r9
	movq	%rcx, %r12
	testb	%al, %al
	movq	16(%rsp), %rbp
	je	.LBB37d7e3d0_302
	jmp	.LBB37d7e3d0_568
.LBB37d7e3d0_326:
	testq	%r15, %r15
	jne	.LBB37d7e3d0_347
	cmpq	$0, 320(%rsp)
	movq	8(%rsp), %r15
	movq	40(%rsp), %r12
	je	.LBB37d7e3d0_296
	movq	304(%rsp), %rax
	movq	%rdi, %rbx
	movq	%rax, %rdi
	movq	%r8, %r14
	callq	rattle_dealloc@PLT
	movq	%r14, %r8
	movq	%rbx, %rdi
	movzbl	8(%rbp), %eax
	leaq	.LJTI37d7e3d0_5(%rip), %rcx
	movslq	(%rcx,%rax,4), %rax
	addq	%rcx, %rax
	jmpq	*%rax
.LBB37d7e3d0_329:
	cmpb	$0, 17(%rbp)
	jne	.LBB37d7e3d0_331
	movl	20(%rbp), %eax
	movzbl	16(%rbp), %ecx
	movl	$1, %edx
	shlq	%cl, %rdx
	cmpq	%rax, %rdx
	je	.LBB37d7e3d0_293
.LBB37d7e3d0_331:
	leaq	16(%rbp), %r14
	movzbl	80(%rsp), %ebx
	movzbl	%bl, %eax
	leaq	.LJTI37d7e3d0_9(%rip), %rcx
	movslq	(%rcx,%rax,4), %rax
	addq	%rcx, %rax
	jmpq	*%rax
.LBB37d7e3d0_332:
	cmpq	$0, 96(%rsp)
	je	.LBB37d7e3d0_376
	movzbl	72(%rsp), %eax
	movzbl	(%r14), %ecx
	jmp	.LBB37d7e3d0_385
.LBB37d7e3d0_334:
	cmpb	$1, 20(%rbp)
	jne	.LBB37d7e3d0_338
	movl	24(%rbp), %eax
	movzbl	16(%rbp), %ecx
	movl	$1, %edx
	shlq	%cl, %rdx
	cmpq	%rax, %rdx
	je	.LBB37d7e3d0_293
	jmp	.LBB37d7e3d0_340
.LBB37d7e3d0_336:
	movq	32(%rbp), %rdi
	movq	40(%rbp), %rax
	leaq	(%rax,%rax,2), %rsi
	callq	hll_kernels.kernels.all_zero
	testb	%al, %al
	je	.LBB37d7e3d0_343
	movq	32(%rsp), %rdi
	movq	176(%rsp), %r8
	jmp	.LBB37d7e3d0_293
.LBB37d7e3d0_338:
	movq	32(%rbp), %rax
	movq	40(%rbp), %rsi
	movq	%rdi, %rbx
	movq	%rax, %rdi
	movq	%r8, %r14
	callq	hll_kernels.kernels.all_zero
	testb	%al, %al
	je	.LBB37d7e3d0_340
	movq	%r14, %r8
	movq	%rbx, %rdi
	jmp	.LBB37d7e3d0_293
.LBB37d7e3d0_340:
	movq	%r12, 40(%rsp)
	movzbl	80(%rsp), %r12d
	leaq	.LJTI37d7e3d0_6(%rip), %rax
	movslq	(%rax,%r12,4), %rcx
	addq	%rax, %rcx
	movq	%r15, 8(%rsp)
	jmpq	*%rcx
.LBB37d7e3d0_341:
	cmpq	$0, 96(%rsp)
	je	.LBB37d7e3d0_400
.LBB37d7e3d0_342:
	movzbl	72(%rsp), %eax
	movq	%rbp, %r15
	movzbl	16(%rbp), %ecx
	jmp	.LBB37d7e3d0_536
.LBB37d7e3d0_343:
	movq	%rbp, 16(%rsp)
	leaq	16(%rbp), %rbx
	movzbl	80(%rsp), %ebp
	movzbl	%bpl, %eax
	leaq	.LJTI37d7e3d0_8(%rip), %rcx
	movslq	(%rcx,%rax,4), %rax
	addq	%rcx, %rax
	jmpq	*%rax
.LBB37d7e3d0_344:
	cmpq	$0, 96(%rsp)
	je	.LBB37d7e3d0_409
	movq	%r12, 40(%rsp)
	movq	%r15, 8(%rsp)
	movzbl	72(%rsp), %eax
	movzbl	(%rbx), %ecx
	jmp	.LBB37d7e3d0_435
.LBB37d7e3d0_346:
	movq	%r9, %r15
.LBB37d7e3d0_347:
	pxor	%xmm0, %xmm0
	movdqa	%xmm0, 240(%rsp)
	movdqa	%xmm0, 224(%rsp)
	movdqa	%xmm0, 208(%rsp)
	movq	$0, 256(%rsp)
	testq	%r12, %r12
	je	.LBB37d7e3d0_512
	movdqa	%xmm0, 896(%rsp)
	movdqa	%xmm0, 880(%rsp)
	movq	304(%rsp), %r13
	movq	%r13, %rdi
	movq	%r12, %rsi
	callq	std_alloc.vec.Vec.sort_unstable.d18826c7c15f4115
	cmpq	$1, %r12
	je	.LBB37d7e3d0_481
	leaq	-1(%r12), %rsi
	xorl	%eax, %eax
	movq	%rsi, %rdx
	xorl	%ecx, %ecx
.LBB37d7e3d0_350:
	movl	4(%r13,%rcx,4), %edi
	cmpl	(%r13,%rcx,4), %edi
	je	.LBB37d7e3d0_352
	incq	%rcx
	addq	$4, %rax
	decq	%rdx
	cmpq	%rcx, %rsi
	jne	.LBB37d7e3d0_350
	jmp	.LBB37d7e3d0_481
.LBB37d7e3d0_352:
	leaq	-1(%r12), %rsi
	cmpq	%rcx, %rsi
	je	.LBB37d7e3d0_481
	leaq	1(%rcx), %r8
	movl	$1, %r14d
	cmpq	%r12, %r8
	jae	.LBB37d7e3d0_463
	leaq	-2(%r12), %rsi
	movb	$1, %dil
	cmpq	%rcx, %rsi
	jne	.LBB37d7e3d0_474
	movq	%rcx, %rsi
	jmp	.LBB37d7e3d0_478
.LBB37d7e3d0_356:
	cmpb	$1, 92(%rsp)
	jne	.LBB37d7e3d0_374
	movl	96(%rsp), %eax
	jmp	.LBB37d7e3d0_360
.LBB37d7e3d0_358:
	cmpb	$0, 89(%rsp)
	jne	.LBB37d7e3d0_377
	movl	92(%rsp), %eax
.LBB37d7e3d0_360:
	movzbl	88(%rsp), %ecx
	movl	$1, %edx
	shlq	%cl, %rdx
	cmpq	%rax, %rdx
	je	.LBB37d7e3d0_376
	jmp	.LBB37d7e3d0_377
.LBB37d7e3d0_361:
	movq	104(%rsp), %rdi
	movq	112(%rsp), %rax
	leaq	(%rax,%rax,2), %rsi
	jmp	.LBB37d7e3d0_375
.LBB37d7e3d0_362:
	cmpb	$1, 92(%rsp)
	jne	.LBB37d7e3d0_398
	movl	96(%rsp), %eax
	jmp	.LBB37d7e3d0_366
.LBB37d7e3d0_364:
	cmpb	$0, 89(%rsp)
	jne	.LBB37d7e3d0_529
	movl	92(%rsp), %eax
.LBB37d7e3d0_366:
	movzbl	88(%rsp), %ecx
	movl	$1, %edx
	shlq	%cl, %rdx
	cmpq	%rax, %rdx
	je	.LBB37d7e3d0_400
	jmp	.LBB37d7e3d0_529
.LBB37d7e3d0_367:
	movq	104(%rsp), %rbx
	movq	112(%rsp), %rax
	leaq	(%rax,%rax,2), %r14
	jmp	.LBB37d7e3d0_399
.LBB37d7e3d0_368:
	cmpb	$1, 92(%rsp)
	jne	.LBB37d7e3d0_407
	movl	96(%rsp), %eax
	jmp	.LBB37d7e3d0_372
.LBB37d7e3d0_370:
	cmpb	$0, 89(%rsp)
	jne	.LBB37d7e3d0_410
	movl	92(%rsp), %eax
.LBB37d7e3d0_372:
	movzbl	88(%rsp), %ecx
	movl	$1, %edx
	shlq	%cl, %rdx
	cmpq	%rax, %rdx
	je	.LBB37d7e3d0_409
	jmp	.LBB37d7e3d0_410
.LBB37d7e3d0_373:
	movq	104(%rsp), %rdi
	movq	112(%rsp), %rax
	leaq	(%rax,%rax,2), %rsi
	jmp	.LBB37d7e3d0_408
.LBB37d7e3d0_374:
	movq	104(%rsp), %rdi
	movq	112(%rsp), %rsi
.LBB37d7e3d0_375:
	callq	hll_kernels.kernels.all_zero
	testb	%al, %al
	je	.LBB37d7e3d0_377
.LBB37d7e3d0_376:
	movzbl	(%r14), %eax
	cmpb	64(%rsp), %al
	jbe	.LBB37d7e3d0_393
.LBB37d7e3d0_377:
	movzbl	72(%rsp), %eax
	movzbl	(%r14), %ecx
	cmpb	$2, %bl
	jb	.LBB37d7e3d0_385
	cmpb	%cl, %al
	ja	.LBB37d7e3d0_385
	movq	%r12, 40(%rsp)
	movq	%r15, 8(%rsp)
	cmpb	$4, %bl
	jne	.LBB37d7e3d0_631
	movq	$0, 92(%rsp)
	movq	104(%rsp), %rbx
	movq	112(%rsp), %r12
	movzbl	88(%rsp), %eax
	movzbl	(%r14), %edx
	cmpb	$13, %al
	ja	.LBB37d7e3d0_391
	cmpb	$15, %dl
	jb	.LBB37d7e3d0_391
	cmpb	$1, 48(%rbp)
	jne	.LBB37d7e3d0_391
	movq	56(%rbp), %rcx
	movzbl	8(%rcx), %ecx
	movl	$4, %esi
	shlq	%cl, %rsi
	cmpq	$8193, %rsi
	jb	.LBB37d7e3d0_391
	movzbl	%al, %edx
	movq	%rbx, %rdi
	movq	%r12, %rsi
	movq	%r14, %rcx
	callq	hll_registers.folds.max_by_stages.8fbc67663473d8ac
	jmp	.LBB37d7e3d0_534
.LBB37d7e3d0_385:
	pxor	%xmm0, %xmm0
	movdqa	%xmm0, 496(%rsp)
	movdqa	%xmm0, 512(%rsp)
	movdqa	%xmm0, 528(%rsp)
	movdqa	%xmm0, 544(%rsp)
	movdqa	%xmm0, 560(%rsp)
	movzbl	%cl, %ecx
	movzbl	%al, %ebx
	cmpb	%bl, %cl
	cmovbl	%ecx, %ebx
	leaq	496(%rsp), %rdi
	leaq	80(%rsp), %rsi
	movl	%ebx, %edx
	callq	hll_sketch.folding.fold_of.8a2f8b2564a2651f
	movzbl	496(%rsp), %eax
	testb	%al, %al
	jne	.LBB37d7e3d0_290
	movl	%ebx, 352(%rsp)
	movl	%eax, 368(%rsp)
	movq	%r12, 40(%rsp)
	movq	%r15, 8(%rsp)
	movzbl	504(%rsp), %ecx
	movl	516(%rsp), %eax
	movl	%eax, 336(%rsp)
	movq	520(%rsp), %r12
	movdqa	528(%rsp), %xmm0
	movdqa	%xmm0, 480(%rsp)
	movq	528(%rsp), %r13
	movzbl	(%r14), %eax
	movb	%cl, 48(%rsp)
	cmpb	$13, %cl
	ja	.LBB37d7e3d0_395
	cmpb	$15, %al
	jb	.LBB37d7e3d0_395
	cmpb	$1, 48(%rbp)
	jne	.LBB37d7e3d0_395
	movq	56(%rbp), %rcx
	movzbl	8(%rcx), %ecx
	movl	$4, %edx
	shlq	%cl, %rdx
	cmpq	$8193, %rdx
	jb	.LBB37d7e3d0_395
	movzbl	48(%rsp), %edx
	movq	%r12, %rdi
	movq	%r13, %rsi
	movq	%r14, %rcx
	callq	hll_registers.folds.max_by_stages.8fbc67663473d8ac
	jmp	.LBB37d7e3d0_397
.LBB37d7e3d0_391:
	subb	%al, %dl
	movzbl	%dl, %r14d
	leaq	48(%rbp), %rax
	movq	%rax, 48(%rsp)
	movl	$1, %r15d
	movq	%rbp, %r13
	xorl	%ebp, %ebp
.LBB37d7e3d0_392:
	movq	24(%r13), %rcx
	movzbl	17(%r13), %r9d
	movq	%rbx, %rdi
	movq	%r12, %rsi
	movl	%ebp, %edx
	movq	48(%rsp), %r8
	callq	hll_registers.exception_map.max_with_registers.309f015d8caa795c
	movq	%r15, %rax
	movl	%r14d, %ecx
	shrq	%cl, %rax
	incq	%r15
	addl	%r12d, %ebp
	testq	%rax, %rax
	je	.LBB37d7e3d0_392
	jmp	.LBB37d7e3d0_534
.LBB37d7e3d0_393:
	pxor	%xmm0, %xmm0
	movdqa	%xmm0, 272(%rsp)
	movdqa	%xmm0, 256(%rsp)
	movdqa	%xmm0, 240(%rsp)
	movdqa	%xmm0, 224(%rsp)
	movdqa	%xmm0, 208(%rsp)
	movzbl	%al, %esi
	leaq	208(%rsp), %rdi
	movq	%r14, %rdx
	callq	hll_sketch.register_folds.fold_of_registers.64a1999876867b1f
	cmpb	$0, 208(%rsp)
	jne	.LBB37d7e3d0_462
	movzbl	216(%rsp), %eax
	leaq	228(%rsp), %rsi
	movq	20(%rsi), %rcx
	movq	%rcx, 799(%rsp)
	movups	-11(%rsi), %xmm0
	movups	5(%rsi), %xmm1
	movaps	%xmm1, 784(%rsp)
	movaps	%xmm0, 768(%rsp)
	movups	64(%rbp), %xmm0
	movups	80(%rbp), %xmm1
	leaq	807(%rsp), %rcx
	movups	%xmm1, 16(%rcx)
	movups	%xmm0, (%rcx)
	movzbl	80(%rsp), %ecx
	leaq	80(%rsp), %rdx
	movups	72(%rdx), %xmm0
	movups	%xmm0, 52(%rsi)
	movups	8(%rdx), %xmm0
	movups	24(%rdx), %xmm1
	movups	40(%rdx), %xmm2
	movups	56(%rdx), %xmm3
	movups	%xmm3, 36(%rsi)
	movups	%xmm2, 20(%rsi)
	movups	%xmm1, 4(%rsi)
	movups	%xmm0, -12(%rsi)
	movb	%al, 72(%rsp)
	movq	$4, 80(%rsp)
	movb	%al, 88(%rsp)
	movq	831(%rsp), %rax
	movq	%rax, 72(%rdx)
	movdqa	768(%rsp), %xmm0
	movdqa	784(%rsp), %xmm1
	movdqa	800(%rsp), %xmm2
	movdqa	816(%rsp), %xmm3
	jmp	.LBB37d7e3d0_471
.LBB37d7e3d0_395:
	subb	48(%rsp), %al
	movzbl	%al, %r14d
	movl	$1, %r15d
	xorl	%ebx, %ebx
.LBB37d7e3d0_396:
	movq	24(%rbp), %rcx
	movzbl	17(%rbp), %r9d
	movq	%r12, %rdi
	movq	%r13, %rsi
	movl	%ebx, %edx
	leaq	48(%rbp), %r8
	callq	hll_registers.exception_map.max_with_registers.309f015d8caa795c
	movq	%r15, %rax
	movl	%r14d, %ecx
	shrq	%cl, %rax
	incq	%r15
	addl	%r13d, %ebx
	testq	%rax, %rax
	je	.LBB37d7e3d0_396
.LBB37d7e3d0_397:
	movzbl	80(%rsp), %eax
	leaq	80(%rsp), %rdx
	movups	72(%rdx), %xmm0
	leaq	228(%rsp), %rcx
	movups	%xmm0, 52(%rcx)
	movups	8(%rdx), %xmm0
	movdqu	24(%rdx), %xmm1
	movdqu	40(%rdx), %xmm2
	movdqu	56(%rdx), %xmm3
	movdqu	%xmm3, 36(%rcx)
	movdqu	%xmm2, 20(%rcx)
	movdqu	%xmm1, 4(%rcx)
	movups	%xmm0, -12(%rcx)
	movl	352(%rsp), %ecx
	movb	%cl, 72(%rsp)
	movq	$4, 80(%rsp)
	movzbl	48(%rsp), %ecx
	movb	%cl, 88(%rsp)
	leaq	500(%rsp), %rsi
	movzbl	7(%rsi), %ecx
	movb	%cl, 11(%rdx)
	movzwl	5(%rsi), %ecx
	movw	%cx, 9(%rdx)
	movq	$0, 92(%rsp)
	movl	336(%rsp), %ecx
	movl	%ecx, 100(%rsp)
	movq	%r12, 104(%rsp)
	movdqa	480(%rsp), %xmm0
	movdqa	%xmm0, 112(%rsp)
	pxor	%xmm0, %xmm0
	movdqu	%xmm0, 48(%rdx)
	movq	$0, 64(%rdx)
	movb	$1, 152(%rsp)
	movq	$0, 80(%rdx)
	movq	$0, 73(%rdx)
	movq	%rax, 208(%rsp)
	leaq	208(%rsp), %rdi
	callq	hll_sketch.mode.Mode.drop.309f015d8caa795c
	xorl	%r14d, %r14d
	movq	8(%rsp), %r15
	movq	40(%rsp), %r12
	movl	368(%rsp), %eax
	jmp	.LBB37d7e3d0_291
.LBB37d7e3d0_398:
	movq	104(%rsp), %rbx
	movq	112(%rsp), %r14
.LBB37d7e3d0_399:
	movq	%rbx, %rdi
	movq	%r14, %rsi
	callq	hll_kernels.kernels.all_zero
	testb	%al, %al
	je	.LBB37d7e3d0_527
.LBB37d7e3d0_400:
	movq	%rbp, 16(%rsp)
	movzbl	16(%rbp), %r15d
	cmpb	%r15b, 64(%rsp)
	jae	.LBB37d7e3d0_403
	movl	%r12d, %eax
	leaq	.LJTI37d7e3d0_7(%rip), %rcx
	movslq	(%rcx,%rax,4), %rax
	addq	%rcx, %rax
	jmpq	*%rax
.LBB37d7e3d0_402:
	cmpq	$0, 96(%rsp)
	movq	16(%rsp), %rbp
	jne	.LBB37d7e3d0_342
	jmp	.LBB37d7e3d0_528
.LBB37d7e3d0_403:
	movq	16(%rsp), %rax
	movq	32(%rax), %rbx
	movq	40(%rax), %r12
	testq	%r12, %r12
	je	.LBB37d7e3d0_464
	movb	$12, %r14b
	js	.LBB37d7e3d0_543
	movl	$1, %esi
	movq	%r12, %rdi
	callq	rattle_alloc@PLT
	testb	$1, %al
	movb	$1, %al
	je	.LBB37d7e3d0_541
	movq	%rdx, %r13
	jmp	.LBB37d7e3d0_465
.LBB37d7e3d0_407:
	movq	104(%rsp), %rdi
	movq	112(%rsp), %rsi
.LBB37d7e3d0_408:
	callq	hll_kernels.kernels.all_zero
	testb	%al, %al
	je	.LBB37d7e3d0_410
.LBB37d7e3d0_409:
	movzbl	(%rbx), %eax
	cmpb	64(%rsp), %al
	jbe	.LBB37d7e3d0_461
.LBB37d7e3d0_410:
	movq	%r12, 40(%rsp)
	movq	%r15, 8(%rsp)
	movzbl	72(%rsp), %eax
	movzbl	(%rbx), %ecx
	cmpb	$2, %bpl
	jb	.LBB37d7e3d0_435
	cmpb	%cl, %al
	ja	.LBB37d7e3d0_435
	cmpb	$4, %bpl
	jne	.LBB37d7e3d0_631
	movq	$0, 92(%rsp)
	movq	104(%rsp), %r12
	movq	112(%rsp), %r10
	movzbl	(%rbx), %eax
	subb	88(%rsp), %al
	movzbl	%al, %r14d
	movq	%r10, %rax
	shrq	$2, %rax
	leaq	(%rax,%rax,2), %r15
	movq	%r10, %rax
	shrq	$6, %rax
	movq	%rax, 352(%rsp)
	shlq	$4, %rax
	leaq	(%rax,%rax,2), %rax
	movq	%rax, 48(%rsp)
	subq	%rax, %r15
	movq	%r10, %rcx
	andq	$-64, %rcx
	leaq	(%r12,%rcx), %r11
	movabsq	$-6148914691236517205, %rdx
	movq	%r15, %rax
	mulq	%rdx
	shrq	%rdx
	leaq	-1(%rdx), %rax
	leaq	(%r12,%rcx), %rsi
	incq	%rsi
	leaq	(%r12,%rcx), %rdi
	addq	$2, %rdi
	addq	%r12, %rcx
	addq	$3, %rcx
	leaq	(%r11,%rdx,4), %r8
	addq	$-4, %r8
	cmpq	%r11, %r8
	setb	%r8b
	shrq	$62, %rax
	setne	%al
	leaq	(%r11,%rdx,4), %r9
	addq	$-3, %r9
	cmpq	%rsi, %r9
	setb	%sil
	orb	%r8b, %sil
	leaq	(%r11,%rdx,4), %r8
	addq	$-2, %r8
	cmpq	%rdi, %r8
	setb	%dil
	leaq	(%r11,%rdx,4), %r8
	decq	%r8
	cmpq	%rcx, %r8
	setb	%cl
	orb	%al, %sil
	orb	%dil, %cl
	orb	%sil, %cl
	movb	%cl, 336(%rsp)
	movq	%rdx, %rax
	andq	$-16, %rax
	movq	%rax, 448(%rsp)
	movabsq	$9223372036854775792, %rax
	orq	$8, %rax
	andq	%rdx, %rax
	movq	%rax, 600(%rsp)
	xorl	%ebx, %ebx
	xorl	%r13d, %r13d
	movq	%r10, 472(%rsp)
	movq	%r14, 464(%rsp)
	movq	%r15, 456(%rsp)
	movq	%r12, 608(%rsp)
	jmp	.LBB37d7e3d0_415
.LBB37d7e3d0_414:
	incq	%r13
	movq	%r13, %rax
	movl	%r14d, %ecx
	shrq	%cl, %rax
	addl	%r10d, %ebx
	testq	%rax, %rax
	jne	.LBB37d7e3d0_534
.LBB37d7e3d0_415:
	movl	%ebx, %eax
	shrl	$2, %eax
	movq	16(%rsp), %rcx
	movq	32(%rcx), %rbp
	leaq	(%rax,%rax,2), %r8
	cmpq	$64, %r10
	jb	.LBB37d7e3d0_418
	leaq	(%r8,%rbp), %rsi
	addq	$32, %rsi
	movq	%r12, %rdi
	movq	352(%rsp), %r9
.LBB37d7e3d0_417:
	movdqa	.LCPI37d7e3d0_17(%rip), %xmm0
	movdqu	-32(%rsi), %xmm1
	movdqu	-20(%rsi), %xmm2
	movdqu	-8(%rsi), %xmm4
	movdqu	(%rsi), %xmm5
	pshufb	%xmm0, %xmm1
	pshufb	%xmm0, %xmm2
	pshufb	%xmm0, %xmm4
	pshufb	.LCPI37d7e3d0_18(%rip), %xmm5
	movdqa	%xmm2, %xmm0
	psllw	$4, %xmm0
	pblendw	$170, %xmm2, %xmm0
	movdqa	%xmm1, %xmm3
	psllw	$4, %xmm3
	pblendw	$170, %xmm1, %xmm3
	movdqa	%xmm4, %xmm1
	psllw	$4, %xmm1
	pblendw	$170, %xmm4, %xmm1
	movdqa	%xmm5, %xmm2
	psllw	$4, %xmm2
	pblendw	$170, %xmm5, %xmm2
	movdqa	%xmm1, %xmm4
	psrlw	$4, %xmm4
	movdqa	%xmm3, %xmm6
	psrlw	$4, %xmm6
	movdqa	%xmm0, %xmm7
	psrlw	$4, %xmm7
	movdqa	%xmm2, %xmm5
	psrlw	$4, %xmm5
	movdqa	.LCPI37d7e3d0_19(%rip), %xmm8
	pand	%xmm8, %xmm7
	pand	%xmm8, %xmm6
	pand	%xmm8, %xmm4
	pand	%xmm8, %xmm5
	psrlw	$2, %xmm1
	psrlw	$2, %xmm3
	psrlw	$2, %xmm0
	psrlw	$2, %xmm2
	movdqa	.LCPI37d7e3d0_20(%rip), %xmm8
	pand	%xmm8, %xmm0
	por	%xmm7, %xmm0
	pand	%xmm8, %xmm3
	por	%xmm6, %xmm3
	pand	%xmm8, %xmm1
	por	%xmm4, %xmm1
	pand	%xmm8, %xmm2
	por	%xmm5, %xmm2
	movdqu	(%rdi), %xmm4
	pmaxub	%xmm3, %xmm4
	movdqu	16(%rdi), %xmm3
	pmaxub	%xmm0, %xmm3
	movdqu	32(%rdi), %xmm0
	pmaxub	%xmm1, %xmm0
	movdqu	48(%rdi), %xmm1
	pmaxub	%xmm2, %xmm1
	movdqu	%xmm0, 32(%rdi)
	movdqu	%xmm1, 48(%rdi)
	movdqu	%xmm4, (%rdi)
	movdqu	%xmm3, 16(%rdi)
	addq	$48, %rsi
	addq	$64, %rdi
	decq	%r9
	jne	.LBB37d7e3d0_417
.LBB37d7e3d0_418:
	cmpq	$3, %r15
	jb	.LBB37d7e3d0_414
	cmpq	$24, %r15
	setb	%al
	orb	336(%rsp), %al
	testb	$1, %al
	jne	.LBB37d7e3d0_420
	movl	%r13d, %eax
	imull	%r10d, %eax
	shrl	$2, %eax
	leal	(%rax,%rax,2), %ecx
	addq	%rbp, %rcx
	movq	48(%rsp), %rsi
	addq	%rsi, %rcx
	leaq	(%rsi,%rbp), %rdi
	leaq	(%r11,%rdx,4), %rsi
	cmpq	%rsi, %rcx
	jae	.LBB37d7e3d0_424
	leaq	(%rax,%rax,2), %rax
	leaq	(%rdx,%rdx,2), %rcx
	addq	%rcx, %rax
	addq	%rdi, %rax
	cmpq	%rax, %r11
	jae	.LBB37d7e3d0_424
.LBB37d7e3d0_420:
	xorl	%esi, %esi
.LBB37d7e3d0_433:
	addq	48(%rsp), %rbp
	leaq	(%rsi,%rsi,2), %rax
	addq	%r8, %rax
	addq	%rbp, %rax
	addq	$2, %rax
.LBB37d7e3d0_434:
	movzbl	-2(%rax), %ecx
	movzbl	-1(%rax), %edi
	movzbl	(%rax), %r8d
	shll	$8, %edi
	movl	%r8d, %r9d
	shll	$16, %r9d
	orl	%edi, %r9d
	orl	%ecx, %edi
	shrl	$6, %edi
	shrl	$12, %r9d
	shrb	$2, %r8b
	andb	$63, %r9b
	movd	%ecx, %xmm0
	pinsrb	$1, %edi, %xmm0
	pand	.LCPI37d7e3d0_25(%rip), %xmm0
	movd	(%r11,%rsi,4), %xmm1
	movzbl	%r9b, %ecx
	pinsrb	$2, %ecx, %xmm0
	movzbl	%r8b, %ecx
	pinsrb	$3, %ecx, %xmm0
	pmaxub	%xmm1, %xmm0
	movd	%xmm0, (%r11,%rsi,4)
	incq	%rsi
	addq	$3, %rax
	cmpq	%rsi, %rdx
	jne	.LBB37d7e3d0_434
	jmp	.LBB37d7e3d0_414
.LBB37d7e3d0_424:
	cmpq	$48, %r15
	movq	%r8, 368(%rsp)
	movq	%rdi, 480(%rsp)
	jae	.LBB37d7e3d0_429
	xorl	%edi, %edi
.LBB37d7e3d0_426:
	movq	%rbp, 616(%rsp)
	leaq	(%rdi,%rdi,2), %rax
	addq	%r8, %rax
	movq	480(%rsp), %rcx
	leaq	(%rcx,%rax), %r15
	addq	$23, %r15
	movq	600(%rsp), %rbp
.LBB37d7e3d0_427:
	movzbl	-23(%r15), %eax
	movd	%eax, %xmm3
	pinsrb	$1, -20(%r15), %xmm3
	pinsrb	$2, -17(%r15), %xmm3
	pinsrb	$3, -14(%r15), %xmm3
	movzbl	-11(%r15), %esi
	movdqa	%xmm3, %xmm1
	pinsrb	$4, %esi, %xmm1
	movzbl	-8(%r15), %r9d
	pinsrb	$5, %r9d, %xmm1
	movzbl	-5(%r15), %r10d
	pinsrb	$6, %r10d, %xmm1
	movzbl	-2(%r15), %r14d
	pinsrb	$7, %r14d, %xmm1
	movzbl	-21(%r15), %eax
	movd	%eax, %xmm2
	pinsrb	$1, -18(%r15), %xmm2
	pinsrb	$2, -15(%r15), %xmm2
	pinsrb	$3, -12(%r15), %xmm2
	movzbl	-9(%r15), %ecx
	movdqa	%xmm2, %xmm0
	pinsrb	$4, %ecx, %xmm0
	movzbl	-6(%r15), %r12d
	pinsrb	$5, %r12d, %xmm0
	movzbl	-3(%r15), %r8d
	pinsrb	$6, %r8d, %xmm0
	pmovzxbd	%xmm3, %xmm4
	movzbl	(%r15), %eax
	pinsrb	$7, %eax, %xmm0
	pmovzxbd	%xmm2, %xmm2
	movd	%esi, %xmm7
	pinsrb	$4, %r9d, %xmm7
	pinsrb	$8, %r10d, %xmm7
	pinsrb	$12, %r14d, %xmm7
	movzbl	-10(%r15), %esi
	movd	%esi, %xmm6
	pinsrb	$4, -7(%r15), %xmm6
	pinsrb	$8, -4(%r15), %xmm6
	pinsrb	$12, -1(%r15), %xmm6
	movzbl	-22(%r15), %esi
	movd	%esi, %xmm3
	pinsrb	$4, -19(%r15), %xmm3
	pinsrb	$8, -16(%r15), %xmm3
	pinsrb	$12, -13(%r15), %xmm3
	pslld	$8, %xmm3
	movd	%ecx, %xmm5
	pinsrb	$4, %r12d, %xmm5
	pinsrb	$8, %r8d, %xmm5
	pinsrb	$12, %eax, %xmm5
	pslld	$8, %xmm6
	pslld	$16, %xmm2
	pslld	$16, %xmm5
	por	%xmm6, %xmm5
	por	%xmm3, %xmm2
	por	%xmm7, %xmm6
	por	%xmm4, %xmm3
	movdqa	.LCPI37d7e3d0_23(%rip), %xmm4
	pand	%xmm4, %xmm1
	psrld	$6, %xmm3
	psrld	$6, %xmm6
	movdqa	.LCPI37d7e3d0_21(%rip), %xmm7
	pand	%xmm7, %xmm6
	pand	%xmm7, %xmm3
	packusdw	%xmm6, %xmm3
	pxor	%xmm6, %xmm6
	packuswb	%xmm6, %xmm3
	pand	%xmm4, %xmm3
	psrld	$12, %xmm2
	psrld	$12, %xmm5
	pand	%xmm7, %xmm5
	pand	%xmm7, %xmm2
	packusdw	%xmm5, %xmm2
	packuswb	%xmm6, %xmm2
	pand	%xmm4, %xmm2
	psrlw	$2, %xmm0
	pand	.LCPI37d7e3d0_22(%rip), %xmm0
	movzbl	(%r11,%rdi,4), %eax
	movd	%eax, %xmm4
	pinsrb	$1, 4(%r11,%rdi,4), %xmm4
	pinsrb	$2, 8(%r11,%rdi,4), %xmm4
	pinsrb	$3, 12(%r11,%rdi,4), %xmm4
	pinsrb	$4, 16(%r11,%rdi,4), %xmm4
	pinsrb	$5, 20(%r11,%rdi,4), %xmm4
	pinsrb	$6, 24(%r11,%rdi,4), %xmm4
	pinsrb	$7, 28(%r11,%rdi,4), %xmm4
	movzbl	1(%r11,%rdi,4), %eax
	movd	%eax, %xmm5
	pinsrb	$1, 5(%r11,%rdi,4), %xmm5
	pinsrb	$2, 9(%r11,%rdi,4), %xmm5
	pinsrb	$3, 13(%r11,%rdi,4), %xmm5
	pinsrb	$4, 17(%r11,%rdi,4), %xmm5
	pinsrb	$5, 21(%r11,%rdi,4), %xmm5
	pinsrb	$6, 25(%r11,%rdi,4), %xmm5
	pinsrb	$7, 29(%r11,%rdi,4), %xmm5
	pmaxub	%xmm1, %xmm4
	pmaxub	%xmm3, %xmm5
	movzbl	2(%r11,%rdi,4), %eax
	movd	%eax, %xmm1
	pinsrb	$1, 6(%r11,%rdi,4), %xmm1
	pinsrb	$2, 10(%r11,%rdi,4), %xmm1
	pinsrb	$3, 14(%r11,%rdi,4), %xmm1
	pinsrb	$4, 18(%r11,%rdi,4), %xmm1
	pinsrb	$5, 22(%r11,%rdi,4), %xmm1
	pinsrb	$6, 26(%r11,%rdi,4), %xmm1
	pinsrb	$7, 30(%r11,%rdi,4), %xmm1
	movzbl	3(%r11,%rdi,4), %eax
	movd	%eax, %xmm3
	pinsrb	$1, 7(%r11,%rdi,4), %xmm3
	pinsrb	$2, 11(%r11,%rdi,4), %xmm3
	pinsrb	$3, 15(%r11,%rdi,4), %xmm3
	pinsrb	$4, 19(%r11,%rdi,4), %xmm3
	pinsrb	$5, 23(%r11,%rdi,4), %xmm3
	pinsrb	$6, 27(%r11,%rdi,4), %xmm3
	pmaxub	%xmm2, %xmm1
	pinsrb	$7, 31(%r11,%rdi,4), %xmm3
	pmaxub	%xmm0, %xmm3
	movdqa	%xmm4, %xmm0
	punpcklqdq	%xmm5, %xmm0
	movdqa	%xmm1, %xmm2
	punpcklqdq	%xmm3, %xmm2
	movq	.LCPI37d7e3d0_26(%rip), %xmm6
	pshufb	%xmm6, %xmm0
	pshufb	%xmm6, %xmm2
	punpcklwd	%xmm2, %xmm0
	punpcklbw	%xmm5, %xmm4
	punpcklbw	%xmm3, %xmm1
	punpcklwd	%xmm1, %xmm4
	movdqu	%xmm4, (%r11,%rdi,4)
	movdqu	%xmm0, 16(%r11,%rdi,4)
	addq	$8, %rdi
	addq	$24, %r15
	cmpq	%rdi, %rbp
	jne	.LBB37d7e3d0_427
	movq	%rbp, %rsi
	cmpq	%rbp, %rdx
	movq	608(%rsp), %r12
	movq	472(%rsp), %r10
	movq	464(%rsp), %r14
	movq	456(%rsp), %r15
	movq	616(%rsp), %rbp
	movq	368(%rsp), %r8
	je	.LBB37d7e3d0_414
	jmp	.LBB37d7e3d0_433
.LBB37d7e3d0_429:
	leaq	(%r8,%rdi), %r15
	addq	$47, %r15
	xorl	%edi, %edi
	movq	448(%rsp), %r12
.LBB37d7e3d0_430:
	movzbl	-47(%r15), %eax
	movd	%eax, %xmm3
	movzbl	-35(%r15), %esi
	movzbl	-32(%r15), %r9d
	pinsrb	$1, -44(%r15), %xmm3
	movzbl	-45(%r15), %eax
	movd	%eax, %xmm2
	pinsrb	$2, -41(%r15), %xmm3
	pinsrb	$1, -42(%r15), %xmm2
	pinsrb	$3, -38(%r15), %xmm3
	movzbl	-29(%r15), %ecx
	pinsrb	$2, -39(%r15), %xmm2
	movdqa	%xmm3, %xmm0
	pinsrb	$3, -36(%r15), %xmm2
	pinsrb	$4, %esi, %xmm0
	movzbl	-33(%r15), %r14d
	movdqa	%xmm2, %xmm1
	pinsrb	$4, %r14d, %xmm1
	movzbl	-26(%r15), %eax
	movzbl	-30(%r15), %r10d
	pinsrb	$5, %r9d, %xmm0
	movd	%esi, %xmm4
	movzbl	-27(%r15), %esi
	pinsrb	$5, %r10d, %xmm1
	pinsrb	$4, %r9d, %xmm4
	pinsrb	$6, %ecx, %xmm0
	pinsrb	$8, %ecx, %xmm4
	pinsrb	$6, %esi, %xmm1
	movzbl	-23(%r15), %ecx
	movzbl	-24(%r15), %r9d
	pinsrb	$7, %eax, %xmm0
	pinsrb	$12, %eax, %xmm4
	pinsrb	$7, %r9d, %xmm1
	movzbl	-20(%r15), %eax
	movd	%ecx, %xmm10
	pinsrb	$8, %ecx, %xmm0
	pinsrb	$4, %eax, %xmm10
	pinsrb	$9, %eax, %xmm0
	movzbl	-17(%r15), %ecx
	movzbl	-21(%r15), %r8d
	pinsrb	$8, %r8d, %xmm1
	movd	%r8d, %xmm6
	movzbl	-18(%r15), %eax
	pinsrb	$9, %eax, %xmm1
	pinsrb	$8, %ecx, %xmm10
	pinsrb	$10, %ecx, %xmm0
	movzbl	-14(%r15), %ecx
	pinsrb	$4, %eax, %xmm6
	movzbl	-10(%r15), %eax
	movd	%eax, %xmm8
	movzbl	-15(%r15), %eax
	pinsrb	$10, %eax, %xmm1
	pinsrb	$12, %ecx, %xmm10
	pinsrb	$11, %ecx, %xmm0
	movzbl	-11(%r15), %ecx
	movd	%ecx, %xmm15
	pinsrb	$12, %ecx, %xmm0
	movzbl	-34(%r15), %ecx
	pinsrb	$8, %eax, %xmm6
	movzbl	-22(%r15), %eax
	movd	%eax, %xmm7
	movzbl	-12(%r15), %eax
	pinsrb	$11, %eax, %xmm1
	movd	%ecx, %xmm9
	movzbl	-9(%r15), %ecx
	pinsrb	$12, %ecx, %xmm1
	movd	%ecx, %xmm12
	pinsrb	$12, %eax, %xmm6
	movzbl	-8(%r15), %eax
	pinsrb	$4, %eax, %xmm15
	pinsrb	$13, %eax, %xmm0
	movd	%r14d, %xmm11
	pinsrb	$4, %r10d, %xmm11
	movzbl	-6(%r15), %eax
	pinsrb	$4, %eax, %xmm12
	pinsrb	$13, %eax, %xmm1
	movzbl	-5(%r15), %eax
	pinsrb	$8, %esi, %xmm11
	movzbl	-2(%r15), %r14d
	pinsrb	$8, %eax, %xmm15
	pinsrb	$14, %eax, %xmm0
	movzbl	-46(%r15), %eax
	pinsrb	$12, %r9d, %xmm11
	movzbl	-3(%r15), %r10d
	movd	%eax, %xmm5
	movzbl	(%r11,%rdi,4), %eax
	movd	%eax, %xmm13
	movzbl	1(%r11,%rdi,4), %eax
	movd	%eax, %xmm14
	movzbl	(%r15), %ecx
	pinsrb	$4, -7(%r15), %xmm8
	pinsrb	$8, -4(%r15), %xmm8
	pinsrb	$12, -1(%r15), %xmm8
	pinsrb	$8, %r10d, %xmm12
	pinsrb	$12, %r14d, %xmm15
	pinsrb	$12, %ecx, %xmm12
	pslld	$16, %xmm12
	pslld	$8, %xmm8
	por	%xmm8, %xmm12
	por	%xmm15, %xmm8
	pinsrb	$14, %r10d, %xmm1
	movzbl	3(%r11,%rdi,4), %eax
	movd	%eax, %xmm15
	pinsrb	$15, %r14d, %xmm0
	pinsrb	$4, -19(%r15), %xmm7
	pinsrb	$8, -16(%r15), %xmm7
	pinsrb	$12, -13(%r15), %xmm7
	pslld	$16, %xmm6
	pslld	$8, %xmm7
	por	%xmm7, %xmm6
	por	%xmm10, %xmm7
	pinsrb	$15, %ecx, %xmm1
	movzbl	2(%r11,%rdi,4), %eax
	movd	%eax, %xmm10
	pinsrb	$4, -31(%r15), %xmm9
	pinsrb	$4, -43(%r15), %xmm5
	pinsrb	$8, -28(%r15), %xmm9
	pinsrb	$8, -40(%r15), %xmm5
	pinsrb	$12, -25(%r15), %xmm9
	pinsrb	$1, 4(%r11,%rdi,4), %xmm13
	pinsrb	$12, -37(%r15), %xmm5
	pmovzxbd	%xmm3, %xmm3
	pinsrb	$2, 8(%r11,%rdi,4), %xmm13
	pmovzxbd	%xmm2, %xmm2
	pslld	$16, %xmm11
	pinsrb	$3, 12(%r11,%rdi,4), %xmm13
	pslld	$8, %xmm9
	por	%xmm9, %xmm11
	pinsrb	$4, 16(%r11,%rdi,4), %xmm13
	por	%xmm4, %xmm9
	pslld	$8, %xmm5
	pinsrb	$5, 20(%r11,%rdi,4), %xmm13
	pslld	$16, %xmm2
	por	%xmm5, %xmm2
	pinsrb	$6, 24(%r11,%rdi,4), %xmm13
	por	%xmm3, %xmm5
	psrld	$6, %xmm9
	pinsrb	$7, 28(%r11,%rdi,4), %xmm13
	psrld	$6, %xmm7
	psrld	$6, %xmm8
	pinsrb	$1, 5(%r11,%rdi,4), %xmm14
	psrld	$6, %xmm5
	movdqa	.LCPI37d7e3d0_21(%rip), %xmm3
	pinsrb	$2, 9(%r11,%rdi,4), %xmm14
	pand	%xmm3, %xmm8
	psrld	$12, %xmm11
	pinsrb	$3, 13(%r11,%rdi,4), %xmm14
	pand	%xmm3, %xmm7
	psrld	$12, %xmm6
	pinsrb	$4, 17(%r11,%rdi,4), %xmm14
	pand	%xmm3, %xmm9
	psrld	$12, %xmm12
	pinsrb	$5, 21(%r11,%rdi,4), %xmm14
	psrld	$12, %xmm2
	pinsrb	$6, 25(%r11,%rdi,4), %xmm14
	pinsrb	$8, 32(%r11,%rdi,4), %xmm13
	pand	%xmm3, %xmm12
	pinsrb	$7, 29(%r11,%rdi,4), %xmm14
	packusdw	%xmm8, %xmm7
	pand	%xmm3, %xmm6
	pinsrb	$8, 33(%r11,%rdi,4), %xmm14
	pand	%xmm3, %xmm5
	pand	%xmm3, %xmm11
	pinsrb	$1, 7(%r11,%rdi,4), %xmm15
	packusdw	%xmm12, %xmm6
	pand	%xmm3, %xmm2
	pinsrb	$2, 11(%r11,%rdi,4), %xmm15
	packusdw	%xmm9, %xmm5
	pinsrb	$3, 15(%r11,%rdi,4), %xmm15
	pinsrb	$9, 36(%r11,%rdi,4), %xmm13
	pinsrb	$4, 19(%r11,%rdi,4), %xmm15
	pinsrb	$9, 37(%r11,%rdi,4), %xmm14
	packusdw	%xmm11, %xmm2
	pinsrb	$5, 23(%r11,%rdi,4), %xmm15
	packuswb	%xmm7, %xmm5
	movdqa	.LCPI37d7e3d0_22(%rip), %xmm3
	pinsrb	$6, 27(%r11,%rdi,4), %xmm15
	packuswb	%xmm6, %xmm2
	pinsrb	$7, 31(%r11,%rdi,4), %xmm15
	pinsrb	$10, 40(%r11,%rdi,4), %xmm13
	pinsrb	$8, 35(%r11,%rdi,4), %xmm15
	pinsrb	$10, 41(%r11,%rdi,4), %xmm14
	pinsrb	$9, 39(%r11,%rdi,4), %xmm15
	pinsrb	$11, 44(%r11,%rdi,4), %xmm13
	pinsrb	$10, 43(%r11,%rdi,4), %xmm15
	pinsrb	$11, 45(%r11,%rdi,4), %xmm14
	pinsrb	$11, 47(%r11,%rdi,4), %xmm15
	pinsrb	$12, 48(%r11,%rdi,4), %xmm13
	pinsrb	$1, 6(%r11,%rdi,4), %xmm10
	pinsrb	$12, 49(%r11,%rdi,4), %xmm14
	pinsrb	$2, 10(%r11,%rdi,4), %xmm10
	pinsrb	$12, 51(%r11,%rdi,4), %xmm15
	pinsrb	$3, 14(%r11,%rdi,4), %xmm10
	pinsrb	$13, 52(%r11,%rdi,4), %xmm13
	pinsrb	$4, 18(%r11,%rdi,4), %xmm10
	pinsrb	$13, 53(%r11,%rdi,4), %xmm14
	pinsrb	$5, 22(%r11,%rdi,4), %xmm10
	pinsrb	$13, 55(%r11,%rdi,4), %xmm15
	pinsrb	$6, 26(%r11,%rdi,4), %xmm10
	pinsrb	$14, 56(%r11,%rdi,4), %xmm13
	pinsrb	$7, 30(%r11,%rdi,4), %xmm10
	pinsrb	$14, 57(%r11,%rdi,4), %xmm14
	pinsrb	$8, 34(%r11,%rdi,4), %xmm10
	pinsrb	$14, 59(%r11,%rdi,4), %xmm15
	pinsrb	$9, 38(%r11,%rdi,4), %xmm10
	pinsrb	$15, 60(%r11,%rdi,4), %xmm13
	pinsrb	$10, 42(%r11,%rdi,4), %xmm10
	pinsrb	$15, 61(%r11,%rdi,4), %xmm14
	pinsrb	$11, 46(%r11,%rdi,4), %xmm10
	pinsrb	$15, 63(%r11,%rdi,4), %xmm15
	pand	%xmm3, %xmm2
	pinsrb	$12, 50(%r11,%rdi,4), %xmm10
	psrlw	$2, %xmm1
	pand	%xmm3, %xmm5
	pinsrb	$13, 54(%r11,%rdi,4), %xmm10
	pand	%xmm3, %xmm1
	pand	%xmm3, %xmm0
	pinsrb	$14, 58(%r11,%rdi,4), %xmm10
	pmaxub	%xmm0, %xmm13
	pmaxub	%xmm5, %xmm14
	pinsrb	$15, 62(%r11,%rdi,4), %xmm10
	pmaxub	%xmm1, %xmm15
	pmaxub	%xmm2, %xmm10
	movdqa	%xmm13, %xmm0
	movdqa	%xmm10, %xmm1
	punpcklbw	%xmm14, %xmm0
	punpcklbw	%xmm15, %xmm1
	movdqa	%xmm0, %xmm2
	punpckhbw	%xmm14, %xmm13
	punpckhwd	%xmm1, %xmm0
	punpckhbw	%xmm15, %xmm10
	movdqa	%xmm13, %xmm3
	punpcklwd	%xmm10, %xmm3
	punpcklwd	%xmm1, %xmm2
	punpckhwd	%xmm10, %xmm13
	movdqu	%xmm13, 48(%r11,%rdi,4)
	movdqu	%xmm3, 32(%r11,%rdi,4)
	movdqu	%xmm0, 16(%r11,%rdi,4)
	movdqu	%xmm2, (%r11,%rdi,4)
	addq	$16, %rdi
	addq	$48, %r15
	cmpq	%rdi, %r12
	jne	.LBB37d7e3d0_430
	cmpq	%r12, %rdx
	movq	472(%rsp), %r10
	movq	464(%rsp), %r14
	movq	456(%rsp), %r15
	movq	368(%rsp), %r8
	movq	608(%rsp), %r12
	je	.LBB37d7e3d0_414
	movq	448(%rsp), %rsi
	movq	%rsi, %rdi
	testb	$8, %dl
	jne	.LBB37d7e3d0_426
	jmp	.LBB37d7e3d0_433
.LBB37d7e3d0_435:
	pxor	%xmm0, %xmm0
	movdqa	%xmm0, 496(%rsp)
	movdqa	%xmm0, 512(%rsp)
	movdqa	%xmm0, 528(%rsp)
	movdqa	%xmm0, 544(%rsp)
	movdqa	%xmm0, 560(%rsp)
	movzbl	%cl, %ecx
	movzbl	%al, %edx
	cmpb	%dl, %cl
	cmovbl	%ecx, %edx
	leaq	496(%rsp), %rdi
	leaq	80(%rsp), %rsi
	movl	%edx, 600(%rsp)
	callq	hll_sketch.folding.fold_of.8a2f8b2564a2651f
	movzbl	496(%rsp), %eax
	movl	%eax, 368(%rsp)
	testb	%al, %al
	je	.LBB37d7e3d0_437
	movzbl	497(%rsp), %r14d
	jmp	.LBB37d7e3d0_460
.LBB37d7e3d0_437:
	movzbl	504(%rsp), %ecx
	movl	516(%rsp), %eax
	movl	%eax, 876(%rsp)
	movq	520(%rsp), %r10
	movdqa	528(%rsp), %xmm0
	movdqa	%xmm0, 1088(%rsp)
	movq	528(%rsp), %r11
	movzbl	(%rbx), %eax
	movb	%cl, 207(%rsp)
	subb	%cl, %al
	movzbl	%al, %ebx
	movq	%r11, %rax
	shrq	$2, %rax
	leaq	(%rax,%rax,2), %r15
	movq	%r11, %rax
	shrq	$6, %rax
	movq	%rax, 352(%rsp)
	shlq	$4, %rax
	leaq	(%rax,%rax,2), %rax
	movq	%rax, 48(%rsp)
	subq	%rax, %r15
	movq	%r11, %rcx
	andq	$-64, %rcx
	leaq	(%r10,%rcx), %r14
	movabsq	$-6148914691236517205, %rdx
	movq	%r15, %rax
	mulq	%rdx
	shrq	%rdx
	leaq	-1(%rdx), %rax
	leaq	(%r10,%rcx), %rsi
	incq	%rsi
	leaq	(%r10,%rcx), %rdi
	addq	$2, %rdi
	addq	%r10, %rcx
	addq	$3, %rcx
	leaq	(%r14,%rdx,4), %r8
	addq	$-4, %r8
	cmpq	%r14, %r8
	setb	%r8b
	shrq	$62, %rax
	setne	%al
	leaq	(%r14,%rdx,4), %r9
	addq	$-3, %r9
	cmpq	%rsi, %r9
	setb	%sil
	orb	%r8b, %sil
	leaq	(%r14,%rdx,4), %r8
	addq	$-2, %r8
	cmpq	%rdi, %r8
	setb	%dil
	leaq	(%r14,%rdx,4), %r8
	decq	%r8
	cmpq	%rcx, %r8
	setb	%cl
	orb	%al, %sil
	orb	%dil, %cl
	orb	%sil, %cl
	movb	%cl, 336(%rsp)
	movq	%rdx, %rax
	andq	$-16, %rax
	movq	%rax, 448(%rsp)
	movabsq	$9223372036854775792, %rax
	orq	$8, %rax
	andq	%rdx, %rax
	movq	%rax, 1080(%rsp)
	xorl	%r13d, %r13d
	xorl	%ebp, %ebp
	movq	%r11, 472(%rsp)
	movq	%rbx, 464(%rsp)
	movq	%r15, 456(%rsp)
	movq	%r10, 856(%rsp)
	jmp	.LBB37d7e3d0_439
.LBB37d7e3d0_438:
	incq	%rbp
	movq	%rbp, %rax
	movl	%ebx, %ecx
	shrq	%cl, %rax
	addl	%r11d, %r13d
	testq	%rax, %rax
	jne	.LBB37d7e3d0_459
.LBB37d7e3d0_439:
	movl	%r13d, %eax
	shrl	$2, %eax
	movq	16(%rsp), %rcx
	movq	32(%rcx), %r12
	leaq	(%rax,%rax,2), %rdi
	cmpq	$64, %r11
	jb	.LBB37d7e3d0_442
	leaq	(%r12,%rdi), %rsi
	addq	$32, %rsi
	movq	%r10, %r8
	movq	352(%rsp), %r9
.LBB37d7e3d0_441:
	movdqa	.LCPI37d7e3d0_17(%rip), %xmm0
	movdqu	-32(%rsi), %xmm1
	movdqu	-20(%rsi), %xmm2
	movdqu	-8(%rsi), %xmm4
	movdqu	(%rsi), %xmm5
	pshufb	%xmm0, %xmm1
	pshufb	%xmm0, %xmm2
	pshufb	%xmm0, %xmm4
	pshufb	.LCPI37d7e3d0_18(%rip), %xmm5
	movdqa	%xmm2, %xmm0
	psllw	$4, %xmm0
	pblendw	$170, %xmm2, %xmm0
	movdqa	%xmm1, %xmm3
	psllw	$4, %xmm3
	pblendw	$170, %xmm1, %xmm3
	movdqa	%xmm4, %xmm1
	psllw	$4, %xmm1
	pblendw	$170, %xmm4, %xmm1
	movdqa	%xmm5, %xmm2
	psllw	$4, %xmm2
	pblendw	$170, %xmm5, %xmm2
	movdqa	%xmm1, %xmm4
	psrlw	$4, %xmm4
	movdqa	%xmm3, %xmm6
	psrlw	$4, %xmm6
	movdqa	%xmm0, %xmm7
	psrlw	$4, %xmm7
	movdqa	%xmm2, %xmm5
	psrlw	$4, %xmm5
	movdqa	.LCPI37d7e3d0_19(%rip), %xmm8
	pand	%xmm8, %xmm7
	pand	%xmm8, %xmm6
	pand	%xmm8, %xmm4
	pand	%xmm8, %xmm5
	psrlw	$2, %xmm1
	psrlw	$2, %xmm3
	psrlw	$2, %xmm0
	psrlw	$2, %xmm2
	movdqa	.LCPI37d7e3d0_20(%rip), %xmm8
	pand	%xmm8, %xmm0
	por	%xmm7, %xmm0
	pand	%xmm8, %xmm3
	por	%xmm6, %xmm3
	pand	%xmm8, %xmm1
	por	%xmm4, %xmm1
	pand	%xmm8, %xmm2
	por	%xmm5, %xmm2
	movdqu	(%r8), %xmm4
	pmaxub	%xmm3, %xmm4
	movdqu	16(%r8), %xmm3
	pmaxub	%xmm0, %xmm3
	movdqu	32(%r8), %xmm0
	pmaxub	%xmm1, %xmm0
	movdqu	48(%r8), %xmm1
	pmaxub	%xmm2, %xmm1
	movdqu	%xmm0, 32(%r8)
	movdqu	%xmm1, 48(%r8)
	movdqu	%xmm4, (%r8)
	movdqu	%xmm3, 16(%r8)
	addq	$48, %rsi
	addq	$64, %r8
	decq	%r9
	jne	.LBB37d7e3d0_441
.LBB37d7e3d0_442:
	cmpq	$3, %r15
	jb	.LBB37d7e3d0_438
	cmpq	$24, %r15
	setb	%al
	orb	336(%rsp), %al
	testb	$1, %al
	jne	.LBB37d7e3d0_444
	movl	%ebp, %eax
	imull	%r11d, %eax
	shrl	$2, %eax
	leal	(%rax,%rax,2), %ecx
	addq	%r12, %rcx
	movq	48(%rsp), %rsi
	addq	%rsi, %rcx
	leaq	(%r12,%rsi), %r8
	leaq	(%r14,%rdx,4), %rsi
	cmpq	%rsi, %rcx
	jae	.LBB37d7e3d0_448
	leaq	(%rax,%rax,2), %rax
	leaq	(%rdx,%rdx,2), %rcx
	addq	%rcx, %rax
	addq	%r8, %rax
	cmpq	%rax, %r14
	jae	.LBB37d7e3d0_448
.LBB37d7e3d0_444:
	xorl	%esi, %esi
.LBB37d7e3d0_457:
	addq	48(%rsp), %r12
	leaq	(%rsi,%rsi,2), %rax
	addq	%rdi, %rax
	addq	%r12, %rax
	addq	$2, %rax
.LBB37d7e3d0_458:
	movzbl	-2(%rax), %ecx
	movzbl	-1(%rax), %edi
	movzbl	(%rax), %r8d
	shll	$8, %edi
	movl	%r8d, %r9d
	shll	$16, %r9d
	orl	%edi, %r9d
	orl	%ecx, %edi
	shrl	$6, %edi
	shrl	$12, %r9d
	shrb	$2, %r8b
	andb	$63, %r9b
	movd	%ecx, %xmm0
	pinsrb	$1, %edi, %xmm0
	pand	.LCPI37d7e3d0_25(%rip), %xmm0
	movd	(%r14,%rsi,4), %xmm1
	movzbl	%r9b, %ecx
	pinsrb	$2, %ecx, %xmm0
	movzbl	%r8b, %ecx
	pinsrb	$3, %ecx, %xmm0
	pmaxub	%xmm1, %xmm0
	movd	%xmm0, (%r14,%rsi,4)
	incq	%rsi
	addq	$3, %rax
	cmpq	%rsi, %rdx
	jne	.LBB37d7e3d0_458
	jmp	.LBB37d7e3d0_438
.LBB37d7e3d0_448:
	cmpq	$48, %r15
	movq	%rdi, 480(%rsp)
	movq	%r8, 608(%rsp)
	jae	.LBB37d7e3d0_453
	xorl	%r8d, %r8d
.LBB37d7e3d0_450:
	movq	%r12, 616(%rsp)
	leaq	(%r8,%r8,2), %rax
	addq	%rdi, %rax
	movq	608(%rsp), %rcx
	leaq	(%rcx,%rax), %r15
	addq	$23, %r15
	movq	1080(%rsp), %r12
.LBB37d7e3d0_451:
	movzbl	-23(%r15), %eax
	movd	%eax, %xmm3
	pinsrb	$1, -20(%r15), %xmm3
	pinsrb	$2, -17(%r15), %xmm3
	pinsrb	$3, -14(%r15), %xmm3
	movzbl	-11(%r15), %esi
	movdqa	%xmm3, %xmm0
	pinsrb	$4, %esi, %xmm0
	movzbl	-8(%r15), %r9d
	pinsrb	$5, %r9d, %xmm0
	movzbl	-5(%r15), %r11d
	pinsrb	$6, %r11d, %xmm0
	movzbl	-2(%r15), %ebx
	pinsrb	$7, %ebx, %xmm0
	movzbl	-21(%r15), %eax
	movd	%eax, %xmm2
	pinsrb	$1, -18(%r15), %xmm2
	pinsrb	$2, -15(%r15), %xmm2
	pinsrb	$3, -12(%r15), %xmm2
	movzbl	-9(%r15), %ecx
	movdqa	%xmm2, %xmm1
	pinsrb	$4, %ecx, %xmm1
	movzbl	-6(%r15), %eax
	pinsrb	$5, %eax, %xmm1
	movzbl	-3(%r15), %r10d
	pinsrb	$6, %r10d, %xmm1
	pmovzxbd	%xmm3, %xmm4
	movzbl	(%r15), %edi
	pinsrb	$7, %edi, %xmm1
	pmovzxbd	%xmm2, %xmm2
	movd	%esi, %xmm7
	pinsrb	$4, %r9d, %xmm7
	pinsrb	$8, %r11d, %xmm7
	pinsrb	$12, %ebx, %xmm7
	movzbl	-10(%r15), %esi
	movd	%esi, %xmm6
	pinsrb	$4, -7(%r15), %xmm6
	pinsrb	$8, -4(%r15), %xmm6
	pinsrb	$12, -1(%r15), %xmm6
	movzbl	-22(%r15), %esi
	movd	%esi, %xmm3
	pinsrb	$4, -19(%r15), %xmm3
	pinsrb	$8, -16(%r15), %xmm3
	pinsrb	$12, -13(%r15), %xmm3
	pslld	$8, %xmm3
	movd	%ecx, %xmm5
	pinsrb	$4, %eax, %xmm5
	pinsrb	$8, %r10d, %xmm5
	pinsrb	$12, %edi, %xmm5
	pslld	$8, %xmm6
	pslld	$16, %xmm2
	pslld	$16, %xmm5
	por	%xmm6, %xmm5
	por	%xmm3, %xmm2
	por	%xmm7, %xmm6
	por	%xmm4, %xmm3
	movdqa	.LCPI37d7e3d0_23(%rip), %xmm4
	pand	%xmm4, %xmm0
	psrld	$6, %xmm3
	psrld	$6, %xmm6
	movdqa	.LCPI37d7e3d0_21(%rip), %xmm7
	pand	%xmm7, %xmm6
	pand	%xmm7, %xmm3
	packusdw	%xmm6, %xmm3
	pxor	%xmm6, %xmm6
	packuswb	%xmm6, %xmm3
	pand	%xmm4, %xmm3
	psrld	$12, %xmm2
	psrld	$12, %xmm5
	pand	%xmm7, %xmm5
	pand	%xmm7, %xmm2
	packusdw	%xmm5, %xmm2
	packuswb	%xmm6, %xmm2
	pand	%xmm4, %xmm2
	psrlw	$2, %xmm1
	pand	.LCPI37d7e3d0_22(%rip), %xmm1
	movzbl	(%r14,%r8,4), %eax
	movd	%eax, %xmm4
	pinsrb	$1, 4(%r14,%r8,4), %xmm4
	pinsrb	$2, 8(%r14,%r8,4), %xmm4
	pinsrb	$3, 12(%r14,%r8,4), %xmm4
	pinsrb	$4, 16(%r14,%r8,4), %xmm4
	pinsrb	$5, 20(%r14,%r8,4), %xmm4
	pinsrb	$6, 24(%r14,%r8,4), %xmm4
	pinsrb	$7, 28(%r14,%r8,4), %xmm4
	movzbl	1(%r14,%r8,4), %eax
	movd	%eax, %xmm5
	pinsrb	$1, 5(%r14,%r8,4), %xmm5
	pinsrb	$2, 9(%r14,%r8,4), %xmm5
	pinsrb	$3, 13(%r14,%r8,4), %xmm5
	pinsrb	$4, 17(%r14,%r8,4), %xmm5
	pinsrb	$5, 21(%r14,%r8,4), %xmm5
	pinsrb	$6, 25(%r14,%r8,4), %xmm5
	pinsrb	$7, 29(%r14,%r8,4), %xmm5
	pmaxub	%xmm0, %xmm4
	pmaxub	%xmm3, %xmm5
	movzbl	2(%r14,%r8,4), %eax
	movd	%eax, %xmm0
	pinsrb	$1, 6(%r14,%r8,4), %xmm0
	pinsrb	$2, 10(%r14,%r8,4), %xmm0
	pinsrb	$3, 14(%r14,%r8,4), %xmm0
	pinsrb	$4, 18(%r14,%r8,4), %xmm0
	pinsrb	$5, 22(%r14,%r8,4), %xmm0
	pinsrb	$6, 26(%r14,%r8,4), %xmm0
	pinsrb	$7, 30(%r14,%r8,4), %xmm0
	movzbl	3(%r14,%r8,4), %eax
	movd	%eax, %xmm3
	pinsrb	$1, 7(%r14,%r8,4), %xmm3
	pinsrb	$2, 11(%r14,%r8,4), %xmm3
	pinsrb	$3, 15(%r14,%r8,4), %xmm3
	pinsrb	$4, 19(%r14,%r8,4), %xmm3
	pinsrb	$5, 23(%r14,%r8,4), %xmm3
	pinsrb	$6, 27(%r14,%r8,4), %xmm3
	pmaxub	%xmm2, %xmm0
	pinsrb	$7, 31(%r14,%r8,4), %xmm3
	pmaxub	%xmm1, %xmm3
	movdqa	%xmm4, %xmm1
	punpcklqdq	%xmm5, %xmm1
	movdqa	%xmm0, %xmm2
	punpcklqdq	%xmm3, %xmm2
	movq	.LCPI37d7e3d0_26(%rip), %xmm6
	pshufb	%xmm6, %xmm1
	pshufb	%xmm6, %xmm2
	punpcklwd	%xmm2, %xmm1
	punpcklbw	%xmm5, %xmm4
	punpcklbw	%xmm3, %xmm0
	punpcklwd	%xmm0, %xmm4
	movdqu	%xmm4, (%r14,%r8,4)
	movdqu	%xmm1, 16(%r14,%r8,4)
	addq	$8, %r8
	addq	$24, %r15
	cmpq	%r8, %r12
	jne	.LBB37d7e3d0_451
	movq	%r12, %rsi
	cmpq	%r12, %rdx
	movq	856(%rsp), %r10
	movq	472(%rsp), %r11
	movq	464(%rsp), %rbx
	movq	456(%rsp), %r15
	movq	616(%rsp), %r12
	movq	480(%rsp), %rdi
	je	.LBB37d7e3d0_438
	jmp	.LBB37d7e3d0_457
.LBB37d7e3d0_453:
	leaq	(%rdi,%r8), %r15
	addq	$47, %r15
	xorl	%r8d, %r8d
	movq	448(%rsp), %rdi
.LBB37d7e3d0_454:
	movzbl	-47(%r15), %eax
	movd	%eax, %xmm4
	movzbl	-35(%r15), %esi
	movzbl	-32(%r15), %r11d
	pinsrb	$1, -44(%r15), %xmm4
	movzbl	-45(%r15), %eax
	movd	%eax, %xmm3
	pinsrb	$2, -41(%r15), %xmm4
	pinsrb	$1, -42(%r15), %xmm3
	pinsrb	$3, -38(%r15), %xmm4
	movzbl	-29(%r15), %eax
	pinsrb	$2, -39(%r15), %xmm3
	movdqa	%xmm4, %xmm1
	pinsrb	$3, -36(%r15), %xmm3
	pinsrb	$4, %esi, %xmm1
	movzbl	-33(%r15), %r9d
	movdqa	%xmm3, %xmm2
	pinsrb	$4, %r9d, %xmm2
	movzbl	-26(%r15), %ecx
	movzbl	-30(%r15), %ebx
	pinsrb	$5, %r11d, %xmm1
	movd	%esi, %xmm5
	movzbl	-27(%r15), %esi
	pinsrb	$5, %ebx, %xmm2
	pinsrb	$4, %r11d, %xmm5
	pinsrb	$6, %eax, %xmm1
	pinsrb	$8, %eax, %xmm5
	pinsrb	$6, %esi, %xmm2
	movzbl	-23(%r15), %eax
	movzbl	-24(%r15), %r11d
	pinsrb	$7, %ecx, %xmm1
	pinsrb	$12, %ecx, %xmm5
	pinsrb	$7, %r11d, %xmm2
	movzbl	-20(%r15), %ecx
	movd	%eax, %xmm11
	pinsrb	$8, %eax, %xmm1
	pinsrb	$4, %ecx, %xmm11
	pinsrb	$9, %ecx, %xmm1
	movzbl	-17(%r15), %ecx
	movzbl	-21(%r15), %eax
	pinsrb	$8, %eax, %xmm2
	movd	%eax, %xmm7
	movzbl	-18(%r15), %eax
	pinsrb	$9, %eax, %xmm2
	pinsrb	$8, %ecx, %xmm11
	pinsrb	$10, %ecx, %xmm1
	movzbl	-14(%r15), %ecx
	pinsrb	$4, %eax, %xmm7
	movzbl	-10(%r15), %eax
	movd	%eax, %xmm9
	movzbl	-15(%r15), %eax
	pinsrb	$10, %eax, %xmm2
	pinsrb	$12, %ecx, %xmm11
	pinsrb	$11, %ecx, %xmm1
	movzbl	-11(%r15), %ecx
	movd	%ecx, %xmm0
	pinsrb	$12, %ecx, %xmm1
	movzbl	-34(%r15), %ecx
	pinsrb	$8, %eax, %xmm7
	movzbl	-22(%r15), %eax
	movd	%eax, %xmm8
	movzbl	-12(%r15), %eax
	pinsrb	$11, %eax, %xmm2
	movd	%ecx, %xmm10
	movzbl	-9(%r15), %ecx
	pinsrb	$12, %ecx, %xmm2
	movd	%ecx, %xmm13
	pinsrb	$12, %eax, %xmm7
	movzbl	-8(%r15), %eax
	pinsrb	$4, %eax, %xmm0
	pinsrb	$13, %eax, %xmm1
	movd	%r9d, %xmm12
	pinsrb	$4, %ebx, %xmm12
	movzbl	-6(%r15), %eax
	pinsrb	$4, %eax, %xmm13
	pinsrb	$13, %eax, %xmm2
	movzbl	-5(%r15), %eax
	pinsrb	$8, %esi, %xmm12
	movzbl	-2(%r15), %r9d
	pinsrb	$8, %eax, %xmm0
	pinsrb	$14, %eax, %xmm1
	movzbl	-46(%r15), %eax
	pinsrb	$12, %r11d, %xmm12
	movzbl	-3(%r15), %ebx
	movd	%eax, %xmm6
	movzbl	(%r14,%r8,4), %eax
	movd	%eax, %xmm14
	movzbl	1(%r14,%r8,4), %eax
	movd	%eax, %xmm15
	movzbl	(%r15), %eax
	pinsrb	$4, -7(%r15), %xmm9
	pinsrb	$8, -4(%r15), %xmm9
	pinsrb	$12, -1(%r15), %xmm9
	pinsrb	$8, %ebx, %xmm13
	pinsrb	$12, %r9d, %xmm0
	pinsrb	$12, %eax, %xmm13
	pslld	$16, %xmm13
	pslld	$8, %xmm9
	por	%xmm9, %xmm13
	por	%xmm0, %xmm9
	pinsrb	$14, %ebx, %xmm2
	movzbl	3(%r14,%r8,4), %ecx
	movd	%ecx, %xmm0
	pinsrb	$15, %r9d, %xmm1
	pinsrb	$4, -19(%r15), %xmm8
	pinsrb	$8, -16(%r15), %xmm8
	pinsrb	$12, -13(%r15), %xmm8
	pslld	$16, %xmm7
	pslld	$8, %xmm8
	por	%xmm8, %xmm7
	por	%xmm11, %xmm8
	pinsrb	$15, %eax, %xmm2
	movzbl	2(%r14,%r8,4), %eax
	movd	%eax, %xmm11
	pinsrb	$4, -31(%r15), %xmm10
	pinsrb	$4, -43(%r15), %xmm6
	pinsrb	$8, -28(%r15), %xmm10
	pinsrb	$8, -40(%r15), %xmm6
	pinsrb	$12, -25(%r15), %xmm10
	pinsrb	$1, 4(%r14,%r8,4), %xmm14
	pinsrb	$12, -37(%r15), %xmm6
	pmovzxbd	%xmm4, %xmm4
	pinsrb	$2, 8(%r14,%r8,4), %xmm14
	pmovzxbd	%xmm3, %xmm3
	pslld	$16, %xmm12
	pinsrb	$3, 12(%r14,%r8,4), %xmm14
	pslld	$8, %xmm10
	por	%xmm10, %xmm12
	pinsrb	$4, 16(%r14,%r8,4), %xmm14
	por	%xmm5, %xmm10
	pslld	$8, %xmm6
	pinsrb	$5, 20(%r14,%r8,4), %xmm14
	pslld	$16, %xmm3
	por	%xmm6, %xmm3
	pinsrb	$6, 24(%r14,%r8,4), %xmm14
	por	%xmm4, %xmm6
	psrld	$6, %xmm10
	pinsrb	$7, 28(%r14,%r8,4), %xmm14
	psrld	$6, %xmm8
	psrld	$6, %xmm9
	pinsrb	$1, 5(%r14,%r8,4), %xmm15
	psrld	$6, %xmm6
	movdqa	.LCPI37d7e3d0_21(%rip), %xmm4
	pinsrb	$2, 9(%r14,%r8,4), %xmm15
	pand	%xmm4, %xmm9
	psrld	$12, %xmm12
	pinsrb	$3, 13(%r14,%r8,4), %xmm15
	pand	%xmm4, %xmm8
	psrld	$12, %xmm7
	pinsrb	$4, 17(%r14,%r8,4), %xmm15
	pand	%xmm4, %xmm10
	psrld	$12, %xmm13
	pinsrb	$5, 21(%r14,%r8,4), %xmm15
	psrld	$12, %xmm3
	pinsrb	$6, 25(%r14,%r8,4), %xmm15
	pinsrb	$8, 32(%r14,%r8,4), %xmm14
	pand	%xmm4, %xmm13
	pinsrb	$7, 29(%r14,%r8,4), %xmm15
	packusdw	%xmm9, %xmm8
	pand	%xmm4, %xmm7
	pinsrb	$8, 33(%r14,%r8,4), %xmm15
	pand	%xmm4, %xmm6
	pand	%xmm4, %xmm12
	pinsrb	$1, 7(%r14,%r8,4), %xmm0
	packusdw	%xmm13, %xmm7
	pand	%xmm4, %xmm3
	pinsrb	$2, 11(%r14,%r8,4), %xmm0
	packusdw	%xmm10, %xmm6
	pinsrb	$3, 15(%r14,%r8,4), %xmm0
	pinsrb	$9, 36(%r14,%r8,4), %xmm14
	pinsrb	$4, 19(%r14,%r8,4), %xmm0
	pinsrb	$9, 37(%r14,%r8,4), %xmm15
	packusdw	%xmm12, %xmm3
	pinsrb	$5, 23(%r14,%r8,4), %xmm0
	packuswb	%xmm8, %xmm6
	movdqa	.LCPI37d7e3d0_22(%rip), %xmm4
	pinsrb	$6, 27(%r14,%r8,4), %xmm0
	packuswb	%xmm7, %xmm3
	pinsrb	$7, 31(%r14,%r8,4), %xmm0
	pinsrb	$10, 40(%r14,%r8,4), %xmm14
	pinsrb	$8, 35(%r14,%r8,4), %xmm0
	pinsrb	$10, 41(%r14,%r8,4), %xmm15
	pinsrb	$9, 39(%r14,%r8,4), %xmm0
	pinsrb	$11, 44(%r14,%r8,4), %xmm14
	pinsrb	$10, 43(%r14,%r8,4), %xmm0
	pinsrb	$11, 45(%r14,%r8,4), %xmm15
	pinsrb	$11, 47(%r14,%r8,4), %xmm0
	pinsrb	$12, 48(%r14,%r8,4), %xmm14
	pinsrb	$1, 6(%r14,%r8,4), %xmm11
	pinsrb	$12, 49(%r14,%r8,4), %xmm15
	pinsrb	$2, 10(%r14,%r8,4), %xmm11
	pinsrb	$12, 51(%r14,%r8,4), %xmm0
	pinsrb	$3, 14(%r14,%r8,4), %xmm11
	pinsrb	$13, 52(%r14,%r8,4), %xmm14
	pinsrb	$4, 18(%r14,%r8,4), %xmm11
	pinsrb	$13, 53(%r14,%r8,4), %xmm15
	pinsrb	$5, 22(%r14,%r8,4), %xmm11
	pinsrb	$13, 55(%r14,%r8,4), %xmm0
	pinsrb	$6, 26(%r14,%r8,4), %xmm11
	pinsrb	$14, 56(%r14,%r8,4), %xmm14
	pinsrb	$7, 30(%r14,%r8,4), %xmm11
	pinsrb	$14, 57(%r14,%r8,4), %xmm15
	pinsrb	$8, 34(%r14,%r8,4), %xmm11
	pinsrb	$14, 59(%r14,%r8,4), %xmm0
	pinsrb	$9, 38(%r14,%r8,4), %xmm11
	pinsrb	$15, 60(%r14,%r8,4), %xmm14
	pinsrb	$10, 42(%r14,%r8,4), %xmm11
	pinsrb	$15, 61(%r14,%r8,4), %xmm15
	pinsrb	$11, 46(%r14,%r8,4), %xmm11
	pinsrb	$15, 63(%r14,%r8,4), %xmm0
	pand	%xmm4, %xmm3
	pinsrb	$12, 50(%r14,%r8,4), %xmm11
	psrlw	$2, %xmm2
	pand	%xmm4, %xmm6
	pinsrb	$13, 54(%r14,%r8,4), %xmm11
	pand	%xmm4, %xmm2
	pand	%xmm4, %xmm1
	pinsrb	$14, 58(%r14,%r8,4), %xmm11
	pmaxub	%xmm1, %xmm14
	pmaxub	%xmm6, %xmm15
	pinsrb	$15, 62(%r14,%r8,4), %xmm11
	pmaxub	%xmm2, %xmm0
	pmaxub	%xmm3, %xmm11
	movdqa	%xmm14, %xmm1
	movdqa	%xmm11, %xmm2
	punpcklbw	%xmm15, %xmm1
	punpcklbw	%xmm0, %xmm2
	movdqa	%xmm1, %xmm3
	punpckhbw	%xmm15, %xmm14
	punpckhwd	%xmm2, %xmm1
	punpckhbw	%xmm0, %xmm11
	movdqa	%xmm14, %xmm0
	punpcklwd	%xmm11, %xmm0
	punpcklwd	%xmm2, %xmm3
	punpckhwd	%xmm11, %xmm14
	movdqu	%xmm14, 48(%r14,%r8,4)
	movdqu	%xmm0, 32(%r14,%r8,4)
	movdqu	%xmm1, 16(%r14,%r8,4)
	movdqu	%xmm3, (%r14,%r8,4)
	addq	$16, %r8
	addq	$48, %r15
	cmpq	%r8, %rdi
	jne	.LBB37d7e3d0_454
	cmpq	%rdi, %rdx
	movq	472(%rsp), %r11
	movq	464(%rsp), %rbx
	movq	456(%rsp), %r15
	movq	480(%rsp), %rdi
	je	.LBB37d7e3d0_438
	movq	448(%rsp), %rsi
	movq	%rsi, %r8
	testb	$8, %dl
	jne	.LBB37d7e3d0_450
	jmp	.LBB37d7e3d0_457
.LBB37d7e3d0_459:
	movzbl	80(%rsp), %eax
	leaq	80(%rsp), %rdx
	movups	72(%rdx), %xmm0
	leaq	228(%rsp), %rcx
	movups	%xmm0, 52(%rcx)
	movups	8(%rdx), %xmm0
	movdqu	24(%rdx), %xmm1
	movdqu	40(%rdx), %xmm2
	movdqu	56(%rdx), %xmm3
	movdqu	%xmm3, 36(%rcx)
	movdqu	%xmm2, 20(%rcx)
	movdqu	%xmm1, 4(%rcx)
	movups	%xmm0, -12(%rcx)
	movl	600(%rsp), %ecx
	movb	%cl, 72(%rsp)
	movq	$4, 80(%rsp)
	movzbl	207(%rsp), %ecx
	movb	%cl, 88(%rsp)
	leaq	500(%rsp), %rsi
	movzbl	7(%rsi), %ecx
	movb	%cl, 11(%rdx)
	movzwl	5(%rsi), %ecx
	movw	%cx, 9(%rdx)
	movq	$0, 92(%rsp)
	movl	876(%rsp), %ecx
	movl	%ecx, 100(%rsp)
	movq	%r10, 104(%rsp)
	movdqa	1088(%rsp), %xmm0
	movdqa	%xmm0, 112(%rsp)
	pxor	%xmm0, %xmm0
	movdqu	%xmm0, 48(%rdx)
	movq	$0, 64(%rdx)
	movb	$1, 152(%rsp)
	movq	$0, 80(%rdx)
	movq	$0, 73(%rdx)
	movq	%rax, 208(%rsp)
	leaq	208(%rsp), %rdi
	callq	hll_sketch.mode.Mode.drop.309f015d8caa795c
	xorl	%r14d, %r14d
.LBB37d7e3d0_460:
	movq	32(%rsp), %rdi
	movq	176(%rsp), %r8
	movq	8(%rsp), %r15
	movq	40(%rsp), %r12
	movl	368(%rsp), %eax
	jmp	.LBB37d7e3d0_292
.LBB37d7e3d0_461:
	pxor	%xmm0, %xmm0
	movdqa	%xmm0, 272(%rsp)
	movdqa	%xmm0, 256(%rsp)
	movdqa	%xmm0, 240(%rsp)
	movdqa	%xmm0, 224(%rsp)
	movdqa	%xmm0, 208(%rsp)
	movzbl	%al, %esi
	leaq	208(%rsp), %rdi
	movq	%rbx, %rdx
	callq	hll_sketch.register_folds.fold_of_registers.dd8a39ea15bd038f
	cmpb	$0, 208(%rsp)
	je	.LBB37d7e3d0_470
.LBB37d7e3d0_462:
	movzbl	209(%rsp), %r14d
	movb	$1, %al
	jmp	.LBB37d7e3d0_291
.LBB37d7e3d0_463:
	movq	%rax, %rdx
	movl	$1, %r12d
	jmp	.LBB37d7e3d0_480
.LBB37d7e3d0_464:
	leaq	4(%rsp), %r13
.LBB37d7e3d0_465:
	movq	%r13, %rcx
	subq	%rbx, %rcx
	cmpq	%r12, %rcx
	jae	.LBB37d7e3d0_472
	xorl	%eax, %eax
	cmpq	$4, %r12
	jb	.LBB37d7e3d0_554
	cmpq	$32, %rcx
	jb	.LBB37d7e3d0_554
	cmpq	$32, %r12
	jae	.LBB37d7e3d0_547
	xorl	%eax, %eax
	jmp	.LBB37d7e3d0_551
.LBB37d7e3d0_470:
	movzbl	216(%rsp), %eax
	leaq	228(%rsp), %rsi
	movq	20(%rsi), %rcx
	movq	%rcx, 911(%rsp)
	movups	-11(%rsi), %xmm0
	movups	5(%rsi), %xmm1
	movaps	%xmm1, 896(%rsp)
	movaps	%xmm0, 880(%rsp)
	movq	16(%rsp), %rcx
	movups	56(%rcx), %xmm0
	movups	72(%rcx), %xmm1
	leaq	919(%rsp), %rcx
	movups	%xmm1, 16(%rcx)
	movups	%xmm0, (%rcx)
	movzbl	80(%rsp), %ecx
	leaq	80(%rsp), %rdx
	movups	72(%rdx), %xmm0
	movups	%xmm0, 52(%rsi)
	movups	8(%rdx), %xmm0
	movups	24(%rdx), %xmm1
	movups	40(%rdx), %xmm2
	movups	56(%rdx), %xmm3
	movups	%xmm3, 36(%rsi)
	movups	%xmm2, 20(%rsi)
	movups	%xmm1, 4(%rsi)
	movups	%xmm0, -12(%rsi)
	movb	%al, 72(%rsp)
	movq	$4, 80(%rsp)
	movb	%al, 88(%rsp)
	movq	943(%rsp), %rax
	movq	%rax, 72(%rdx)
	movdqa	880(%rsp), %xmm0
	movdqa	896(%rsp), %xmm1
	movdqa	912(%rsp), %xmm2
	movdqa	928(%rsp), %xmm3
.LBB37d7e3d0_471:
	movdqu	%xmm3, 57(%rdx)
	movdqu	%xmm2, 41(%rdx)
	movdqu	%xmm1, 25(%rdx)
	movdqu	%xmm0, 9(%rdx)
	movq	$0, 160(%rsp)
	movq	%rcx, 208(%rsp)
	leaq	208(%rsp), %rdi
	callq	hll_sketch.mode.Mode.drop.309f015d8caa795c
	xorl	%r14d, %r14d
	xorl	%eax, %eax
	jmp	.LBB37d7e3d0_291
.LBB37d7e3d0_472:
	movq	%r13, %rdi
	movq	%rbx, %rsi
	movq	%r12, %rdx
	callq	memmove@PLT
	jmp	.LBB37d7e3d0_559
.LBB37d7e3d0_474:
	movq	%rcx, %r8
	notq	%r8
	addq	%r12, %r8
	andq	$-2, %rdx
	negq	%rdx
	xorl	%r9d, %r9d
	movq	%rcx, %rsi
.LBB37d7e3d0_475:
	movl	(%r13,%rax), %r10d
	xorl	%r11d, %r11d
	cmpl	%r10d, 4(%r13,%rax)
	setne	%r11b
	movl	%r10d, (%r13,%rsi,4)
	movzbl	%dil, %r10d
	andl	$1, %r10d
	addq	%rsi, %r10
	movl	4(%r13,%rax), %esi
	cmpl	%esi, 8(%r13,%rax)
	setne	%dil
	movl	%esi, (%r13,%r10,4)
	movq	%r11, %rsi
	addq	%r10, %rsi
	addq	$-2, %r9
	addq	$8, %rax
	cmpq	%r9, %rdx
	jne	.LBB37d7e3d0_475
	testb	$1, %r8b
	je	.LBB37d7e3d0_479
	subq	%r9, %rcx
	leaq	1(%rcx), %r8
.LBB37d7e3d0_478:
	leaq	(,%r8,4), %rax
	movl	(%r13,%rcx,4), %ecx
	cmpl	%ecx, (%r13,%r8,4)
	movzbl	%dil, %edx
	setne	%dil
	movl	%ecx, (%r13,%rsi,4)
	addq	%rdx, %rsi
.LBB37d7e3d0_479:
	movq	%rax, %rdx
	leaq	(,%rsi,4), %rax
	movzbl	%dil, %r12d
	movq	%rsi, %rcx
.LBB37d7e3d0_480:
	movl	(%r13,%rdx), %edx
	movl	%edx, (%r13,%rax)
	addq	%rcx, %r12
	je	.LBB37d7e3d0_517
.LBB37d7e3d0_481:
	bsrq	%r12, %rax
	xorq	$63, %rax
	movq	%rax, %rcx
	negq	%rcx
	movl	$1, %r14d
	shlq	%cl, %r14
	cmpq	$4, %rax
	jb	.LBB37d7e3d0_848
	movl	$64, %ebx
	subq	%rax, %rbx
.LBB37d7e3d0_483:
	movl	$4, %edi
	movl	%ebx, %ecx
	shlq	%cl, %rdi
	movl	$4, %esi
	callq	rattle_alloc@PLT
	testb	$1, %al
	je	.LBB37d7e3d0_848
	movq	%rbx, 40(%rsp)
	movq	%rdx, 768(%rsp)
	movq	$0, 776(%rsp)
	movq	%r14, 784(%rsp)
	cmpq	%r14, %r12
	ja	.LBB37d7e3d0_515
	xorl	%ebx, %ebx
	movq	%r14, 8(%rsp)
.LBB37d7e3d0_486:
	leaq	(%rdx,%rbx,4), %rdi
	leaq	(,%r12,4), %rax
	movq	%rdi, %rcx
	subq	%r13, %rcx
	cmpq	%rax, %rcx
	jae	.LBB37d7e3d0_490
	testq	%r12, %r12
	je	.LBB37d7e3d0_502
	movq	%rbp, %r10
	leaq	(,%rbx,4), %rax
	cmpq	$8, %r12
	jb	.LBB37d7e3d0_489
	leaq	(%rax,%rdx), %rcx
	subq	%r13, %rcx
	cmpq	$32, %rcx
	jae	.LBB37d7e3d0_493
.LBB37d7e3d0_489:
	xorl	%ecx, %ecx
.LBB37d7e3d0_496:
	movq	%r12, %r8
	movq	%rcx, %rsi
	andq	$3, %r8
	je	.LBB37d7e3d0_499
	movq	%rcx, %rsi
.LBB37d7e3d0_498:
	movl	(%r13,%rsi,4), %r9d
	movl	%r9d, (%rdi,%rsi,4)
	incq	%rsi
	decq	%r8
	jne	.LBB37d7e3d0_498
.LBB37d7e3d0_499:
	subq	%r12, %rcx
	cmpq	$-4, %rcx
	movq	%r10, %rbp
	ja	.LBB37d7e3d0_502
	addq	%rdx, %rax
	addq	$12, %rax
.LBB37d7e3d0_501:
	movl	(%r13,%rsi,4), %ecx
	movl	%ecx, -12(%rax,%rsi,4)
	movl	4(%r13,%rsi,4), %ecx
	movl	%ecx, -8(%rax,%rsi,4)
	movl	8(%r13,%rsi,4), %ecx
	movl	%ecx, -4(%rax,%rsi,4)
	movl	12(%r13,%rsi,4), %ecx
	movl	%ecx, (%rax,%rsi,4)
	addq	$4, %rsi
	cmpq	%rsi, %r12
	jne	.LBB37d7e3d0_501
	jmp	.LBB37d7e3d0_502
.LBB37d7e3d0_490:
	movq	%r13, %rsi
	movq	%rax, %rdx
	callq	memmove@PLT
.LBB37d7e3d0_502:
	addq	%r12, %rbx
	movq	%rbx, 776(%rsp)
	movq	8(%rsp), %rax
	movq	%rax, 784(%rsp)
	movq	%r14, %rdx
	subq	%rbx, %rdx
	jbe	.LBB37d7e3d0_507
	subq	%rbx, %rax
	cmpq	%rax, %rdx
	ja	.LBB37d7e3d0_523
	leaq	(%rbx,%rdx), %r14
	cmpq	%r14, %rbx
	jae	.LBB37d7e3d0_506
.LBB37d7e3d0_505:
	shlq	$2, %rbx
	addq	768(%rsp), %rbx
	shlq	$2, %rdx
	movq	%rbx, %rdi
	xorl	%esi, %esi
	callq	memset@PLT
.LBB37d7e3d0_506:
	movq	%r14, 776(%rsp)
	movq	8(%rsp), %rax
	movq	%rax, 784(%rsp)
	leaq	72(%rsp), %rdi
	movq	40(%rsp), %rdx
	jmp	.LBB37d7e3d0_509
.LBB37d7e3d0_507:
	leaq	72(%rsp), %rdi
	movq	40(%rsp), %rdx
	jae	.LBB37d7e3d0_509
	movq	%r14, 776(%rsp)
.LBB37d7e3d0_509:
	pxor	%xmm0, %xmm0
	movdqa	%xmm0, 512(%rsp)
	movdqa	%xmm0, 496(%rsp)
	movq	784(%rsp), %rax
	leaq	500(%rsp), %rcx
	movq	%rax, 16(%rcx)
	movq	768(%rsp), %rax
	movq	%rax, (%rcx)
	movq	776(%rsp), %rax
	movq	%rax, 8(%rcx)
	movdqa	496(%rsp), %xmm0
	movdqa	512(%rsp), %xmm1
	movdqa	%xmm0, 880(%rsp)
	movdqa	%xmm1, 896(%rsp)
	leaq	228(%rsp), %rax
	movdqu	%xmm1, 16(%rax)
	movdqu	%xmm0, (%rax)
	movq	%rdx, 208(%rsp)
	movq	%r12, 216(%rsp)
	movl	$1, 224(%rsp)
	leaq	208(%rsp), %rsi
	callq	hll_sketch.sketch.HllSketch.add_table.8a2f8b2564a2651f
	movl	%eax, %ebx
	movl	%edx, %r14d
	cmpq	$0, 248(%rsp)
	je	.LBB37d7e3d0_511
	movq	232(%rsp), %rdi
	callq	rattle_dealloc@PLT
.LBB37d7e3d0_511:
	testb	%bl, %bl
	movq	32(%rsp), %rdi
	movq	176(%rsp), %r8
	movq	48(%rsp), %r9
	jne	.LBB37d7e3d0_849
.LBB37d7e3d0_512:
	cmpq	$0, 320(%rsp)
	je	.LBB37d7e3d0_514
	movq	304(%rsp), %rax
	movq	%rdi, %rbx
	movq	%rax, %rdi
	movq	%r8, %r14
	callq	rattle_dealloc@PLT
	movq	48(%rsp), %r9
	movq	%r14, %r8
	movq	%rbx, %rdi
.LBB37d7e3d0_514:
	leaq	(%r15,%r15,2), %rax
	shlq	$5, %rax
	addq	%rax, %rbp
	subq	%r15, %r9
	movq	%rbp, %r15
	movq	%r9, %r12
	jmp	.LBB37d7e3d0_293
.LBB37d7e3d0_493:
	movq	%r12, %rcx
	andq	$-8, %rcx
	leaq	(%rdx,%rax), %rsi
	addq	$16, %rsi
	xorl	%r8d, %r8d
.LBB37d7e3d0_494:
	movdqu	(%r13,%r8,4), %xmm0
	movdqu	16(%r13,%r8,4), %xmm1
	movdqu	%xmm0, -16(%rsi,%r8,4)
	movdqu	%xmm1, (%rsi,%r8,4)
	addq	$8, %r8
	cmpq	%r8, %rcx
	jne	.LBB37d7e3d0_494
	cmpq	%rcx, %r12
	movq	%r10, %rbp
	je	.LBB37d7e3d0_502
	jmp	.LBB37d7e3d0_496
.LBB37d7e3d0_515:
	leaq	768(%rsp), %rdi
	movq	%r12, %rsi
	callq	std_alloc.vec.Vec.grow_amortized.e9163d01fd20791a
	testb	%al, %al
	je	.LBB37d7e3d0_846
	movq	768(%rsp), %rdx
	movq	776(%rsp), %rbx
	movq	784(%rsp), %rax
	movq	%rax, 8(%rsp)
	jmp	.LBB37d7e3d0_486
.LBB37d7e3d0_517:
	xorl	%r12d, %r12d
	xorl	%ebx, %ebx
	jmp	.LBB37d7e3d0_483
.LBB37d7e3d0_518:
	cmpb	$1, 92(%rsp)
	jne	.LBB37d7e3d0_525
	movl	96(%rsp), %eax
	movzbl	88(%rsp), %ecx
	movl	$1, %edx
	shlq	%cl, %rdx
	cmpq	%rax, %rdx
	movq	16(%rsp), %rbp
	je	.LBB37d7e3d0_528
	jmp	.LBB37d7e3d0_529
.LBB37d7e3d0_520:
	cmpb	$0, 89(%rsp)
	movq	16(%rsp), %rbp
	jne	.LBB37d7e3d0_529
	movl	92(%rsp), %eax
	movzbl	88(%rsp), %ecx
	movl	$1, %edx
	shlq	%cl, %rdx
	cmpq	%rax, %rdx
	je	.LBB37d7e3d0_528
	jmp	.LBB37d7e3d0_529
.LBB37d7e3d0_522:
	movq	104(%rsp), %rbx
	movq	112(%rsp), %rax
	leaq	(%rax,%rax,2), %r14
	jmp	.LBB37d7e3d0_526
.LBB37d7e3d0_523:
	leaq	768(%rsp), %rdi
	movq	%rdx, %r14
	movq	%rdx, %rsi
	callq	std_alloc.vec.Vec.grow_amortized.e9163d01fd20791a
	testb	%al, %al
	je	.LBB37d7e3d0_846
	movq	776(%rsp), %rbx
	movq	784(%rsp), %rax
	movq	%rax, 8(%rsp)
	movq	%r14, %rdx
	leaq	(%rbx,%rdx), %r14
	cmpq	%r14, %rbx
	jb	.LBB37d7e3d0_505
	jmp	.LBB37d7e3d0_506
.LBB37d7e3d0_525:
	movq	104(%rsp), %rbx
	movq	112(%rsp), %r14
.LBB37d7e3d0_526:
	movq	16(%rsp), %rbp
.LBB37d7e3d0_527:
	movq	%rbx, %rdi
	movq	%r14, %rsi
	callq	hll_kernels.kernels.all_zero
	testb	%al, %al
	je	.LBB37d7e3d0_529
.LBB37d7e3d0_528:
	movzbl	16(%rbp), %eax
	movb	%al, 48(%rsp)
	cmpb	64(%rsp), %al
	jbe	.LBB37d7e3d0_542
.LBB37d7e3d0_529:
	movzbl	72(%rsp), %eax
	movq	%rbp, %r15
	movzbl	16(%rbp), %ecx
	cmpb	$2, %r12b
	jb	.LBB37d7e3d0_536
	cmpb	%cl, %al
	ja	.LBB37d7e3d0_536
	cmpl	$4, %r12d
	jne	.LBB37d7e3d0_631
	movq	$0, 92(%rsp)
	movq	104(%rsp), %rbx
	movq	%r15, %rbp
	movzbl	16(%r15), %eax
	subb	88(%rsp), %al
	movq	112(%rsp), %r14
	movzbl	%al, %r12d
	movl	$1, %r15d
	xorl	%r13d, %r13d
.LBB37d7e3d0_533:
	movl	%r13d, %edx
	addq	32(%rbp), %rdx
	movq	%rbx, %rdi
	movq	%r14, %rsi
	movq	%r14, %rcx
	callq	hll_kernels.kernels.max_into
	movq	%r15, %rax
	movl	%r12d, %ecx
	shrq	%cl, %rax
	incq	%r15
	addq	%r14, %r13
	testq	%rax, %rax
	je	.LBB37d7e3d0_533
.LBB37d7e3d0_534:
	pxor	%xmm0, %xmm0
	leaq	80(%rsp), %rax
	movdqu	%xmm0, 48(%rax)
	movq	$0, 64(%rax)
	movb	$1, 152(%rsp)
	movl	$0, 76(%rax)
	movl	$0, 73(%rax)
.LBB37d7e3d0_535:
	xorl	%r14d, %r14d
	xorl	%eax, %eax
	jmp	.LBB37d7e3d0_541
.LBB37d7e3d0_536:
	pxor	%xmm0, %xmm0
	movdqa	%xmm0, 496(%rsp)
	movdqa	%xmm0, 512(%rsp)
	movdqa	%xmm0, 528(%rsp)
	movdqa	%xmm0, 544(%rsp)
	movdqa	%xmm0, 560(%rsp)
	movzbl	%cl, %ecx
	movzbl	%al, %edx
	cmpb	%dl, %cl
	cmovbl	%ecx, %edx
	leaq	496(%rsp), %rdi
	leaq	80(%rsp), %rsi
	movl	%edx, 48(%rsp)
	callq	hll_sketch.folding.fold_of.8a2f8b2564a2651f
	movzbl	496(%rsp), %eax
	testb	%al, %al
	je	.LBB37d7e3d0_538
	movzbl	497(%rsp), %r14d
	jmp	.LBB37d7e3d0_541
.LBB37d7e3d0_538:
	movl	%eax, 368(%rsp)
	movzbl	504(%rsp), %ecx
	movl	516(%rsp), %eax
	movl	%eax, 352(%rsp)
	movq	520(%rsp), %r14
	movdqa	528(%rsp), %xmm0
	movdqa	%xmm0, 336(%rsp)
	movq	528(%rsp), %r12
	movq	%r15, %rbx
	movzbl	16(%r15), %eax
	movb	%cl, 480(%rsp)
	subb	%cl, %al
	movzbl	%al, %r13d
	movl	$1, %r15d
	xorl	%ebp, %ebp
.LBB37d7e3d0_539:
	movl	%ebp, %edx
	addq	32(%rbx), %rdx
	movq	%r14, %rdi
	movq	%r12, %rsi
	movq	%r12, %rcx
	callq	hll_kernels.kernels.max_into
	movq	%r15, %rax
	movl	%r13d, %ecx
	shrq	%cl, %rax
	incq	%r15
	addq	%r12, %rbp
	testq	%rax, %rax
	je	.LBB37d7e3d0_539
	movzbl	80(%rsp), %eax
	leaq	80(%rsp), %rdx
	movups	72(%rdx), %xmm0
	leaq	228(%rsp), %rcx
	movups	%xmm0, 52(%rcx)
	movups	8(%rdx), %xmm0
	movdqu	24(%rdx), %xmm1
	movdqu	40(%rdx), %xmm2
	movdqu	56(%rdx), %xmm3
	movdqu	%xmm3, 36(%rcx)
	movdqu	%xmm2, 20(%rcx)
	movdqu	%xmm1, 4(%rcx)
	movups	%xmm0, -12(%rcx)
	movl	48(%rsp), %ecx
	movb	%cl, 72(%rsp)
	movq	$4, 80(%rsp)
	movzbl	480(%rsp), %ecx
	movb	%cl, 88(%rsp)
	leaq	500(%rsp), %rsi
	movzbl	7(%rsi), %ecx
	movb	%cl, 11(%rdx)
	movzwl	5(%rsi), %ecx
	movw	%cx, 9(%rdx)
	movq	$0, 92(%rsp)
	movl	352(%rsp), %ecx
	movl	%ecx, 100(%rsp)
	movq	%r14, 104(%rsp)
	movdqa	336(%rsp), %xmm0
	movdqa	%xmm0, 112(%rsp)
	pxor	%xmm0, %xmm0
	movdqu	%xmm0, 48(%rdx)
	movq	$0, 64(%rdx)
	movb	$1, 152(%rsp)
	movq	$0, 80(%rdx)
	movq	$0, 73(%rdx)
	movq	%rax, 208(%rsp)
	leaq	208(%rsp), %rdi
	callq	hll_sketch.mode.Mode.drop.309f015d8caa795c
	xorl	%r14d, %r14d
	movl	368(%rsp), %eax
	jmp	.LBB37d7e3d0_541
.LBB37d7e3d0_542:
	movzbl	48(%rsp), %eax
	movzbl	%al, %ecx
	movl	$1, %edx
	shlq	%cl, %rdx
	movq	%rdx, 352(%rsp)
	movb	$12, %r14b
	cmpb	$63, %al
	jne	.LBB37d7e3d0_544
.LBB37d7e3d0_543:
	movb	$1, %al
.LBB37d7e3d0_541:
	movq	32(%rsp), %rdi
	movq	176(%rsp), %r8
	movq	8(%rsp), %r15
	movq	40(%rsp), %r12
	jmp	.LBB37d7e3d0_292
.LBB37d7e3d0_544:
	movl	$1, %esi
	movq	352(%rsp), %rdi
	callq	rattle_alloc@PLT
	testb	$1, %al
	movb	$1, %al
	je	.LBB37d7e3d0_541
	movq	%rdx, %r12
	cmpb	$0, 48(%rsp)
	je	.LBB37d7e3d0_561
	movq	352(%rsp), %rax
	leaq	-1(%rax), %r14
	movq	%r12, %rdi
	xorl	%esi, %esi
	movq	%r14, %rdx
	callq	memset@PLT
	jmp	.LBB37d7e3d0_562
.LBB37d7e3d0_547:
	movq	%r12, %rax
	andq	$-32, %rax
	xorl	%ecx, %ecx
.LBB37d7e3d0_548:
	movdqu	(%rbx,%rcx), %xmm0
	movdqu	16(%rbx,%rcx), %xmm1
	movdqu	%xmm0, (%r13,%rcx)
	movdqu	%xmm1, 16(%r13,%rcx)
	addq	$32, %rcx
	cmpq	%rcx, %rax
	jne	.LBB37d7e3d0_548
	cmpq	%rax, %r12
	je	.LBB37d7e3d0_559
	testb	$28, %r12b
	je	.LBB37d7e3d0_554
.LBB37d7e3d0_551:
	movq	%rax, %rcx
	movq	%r12, %rax
	andq	$-4, %rax
.LBB37d7e3d0_552:
	movl	(%rbx,%rcx), %edx
	movl	%edx, (%r13,%rcx)
	addq	$4, %rcx
	cmpq	%rcx, %rax
	jne	.LBB37d7e3d0_552
	cmpq	%rax, %r12
	je	.LBB37d7e3d0_559
.LBB37d7e3d0_554:
	movq	%r12, %rdx
	movq	%rax, %rcx
	andq	$3, %rdx
	je	.LBB37d7e3d0_557
	movq	%rax, %rcx
.LBB37d7e3d0_556:
	movzbl	(%rbx,%rcx), %esi
	movb	%sil, (%r13,%rcx)
	incq	%rcx
	decq	%rdx
	jne	.LBB37d7e3d0_556
.LBB37d7e3d0_557:
	subq	%r12, %rax
	cmpq	$-4, %rax
	ja	.LBB37d7e3d0_559
.LBB37d7e3d0_558:
	movzbl	(%rbx,%rcx), %eax
	movb	%al, (%r13,%rcx)
	movzbl	1(%rbx,%rcx), %eax
	movb	%al, 1(%r13,%rcx)
	movzbl	2(%rbx,%rcx), %eax
	movb	%al, 2(%r13,%rcx)
	movzbl	3(%rbx,%rcx), %eax
	movb	%al, 3(%r13,%rcx)
	addq	$4, %rcx
	cmpq	%rcx, %r12
	jne	.LBB37d7e3d0_558
.LBB37d7e3d0_559:
	movq	16(%rsp), %rdx
	movzbl	20(%rdx), %eax
	movl	24(%rdx), %ecx
	movups	56(%rdx), %xmm0
	movups	72(%rdx), %xmm1
	movaps	%xmm1, 512(%rsp)
	movaps	%xmm0, 496(%rsp)
	movzbl	80(%rsp), %edx
	leaq	80(%rsp), %rsi
	movups	8(%rsi), %xmm0
	movups	24(%rsi), %xmm1
	movdqu	40(%rsi), %xmm2
	movdqu	56(%rsi), %xmm3
	leaq	228(%rsp), %rdi
	movups	%xmm0, -12(%rdi)
	movups	%xmm1, 4(%rdi)
	movdqu	%xmm2, 20(%rdi)
	movdqu	%xmm3, 36(%rdi)
	movups	72(%rsi), %xmm0
	movups	%xmm0, 52(%rdi)
	movb	%r15b, 72(%rsp)
	movq	$4, 80(%rsp)
	movb	%r15b, 88(%rsp)
	movb	$0, 11(%rsi)
	movw	$0, 9(%rsi)
	movl	%eax, 92(%rsp)
	movl	%ecx, 96(%rsp)
	movl	$0, 100(%rsp)
	movq	%r13, 104(%rsp)
	movq	%r12, 112(%rsp)
	movq	%r12, 120(%rsp)
	movdqa	496(%rsp), %xmm0
	movdqa	512(%rsp), %xmm1
	movdqu	%xmm1, 64(%rsi)
	movdqu	%xmm0, 48(%rsi)
	movq	$0, 160(%rsp)
	movq	%rdx, 208(%rsp)
.LBB37d7e3d0_560:
	leaq	208(%rsp), %rdi
	callq	hll_sketch.mode.Mode.drop.309f015d8caa795c
	jmp	.LBB37d7e3d0_535
.LBB37d7e3d0_561:
	xorl	%r14d, %r14d
.LBB37d7e3d0_562:
	movb	$0, (%r12,%r14)
	incq	%r14
	movq	%rbp, %r15
	movzbl	16(%rbp), %eax
	subb	48(%rsp), %al
	movzbl	%al, %r13d
	movl	$1, %ebp
	xorl	%ebx, %ebx
.LBB37d7e3d0_563:
	movl	%ebx, %edx
	addq	32(%r15), %rdx
	movq	%r12, %rdi
	movq	%r14, %rsi
	movq	%r14, %rcx
	callq	hll_kernels.kernels.max_into
	movq	%rbp, %rax
	movl	%r13d, %ecx
	shrq	%cl, %rax
	incq	%rbp
	addq	%r14, %rbx
	testq	%rax, %rax
	je	.LBB37d7e3d0_563
	movzbl	80(%r15), %eax
	movq	72(%r15), %rcx
	movq	%rcx, 512(%rsp)
	movups	56(%r15), %xmm0
	movaps	%xmm0, 496(%rsp)
	movl	81(%r15), %ecx
	movl	84(%r15), %edx
	movl	%edx, 307(%rsp)
	movl	%ecx, 304(%rsp)
	movzbl	80(%rsp), %ecx
	leaq	80(%rsp), %rsi
	movups	8(%rsi), %xmm0
	movdqu	24(%rsi), %xmm1
	movdqu	40(%rsi), %xmm2
	movdqu	56(%rsi), %xmm3
	leaq	228(%rsp), %rdx
	movups	%xmm0, -12(%rdx)
	movdqu	%xmm1, 4(%rdx)
	movdqu	%xmm2, 20(%rdx)
	movups	72(%rsi), %xmm0
	movups	%xmm0, 52(%rdx)
	movdqu	%xmm3, 36(%rdx)
	movzbl	48(%rsp), %edx
	movb	%dl, 72(%rsp)
	movq	$4, 80(%rsp)
	movb	%dl, 88(%rsp)
	movq	$0, 16(%rsi)
	movq	$0, 9(%rsi)
	movq	%r12, 104(%rsp)
	movq	%r14, 112(%rsp)
	movq	352(%rsp), %rdx
	movq	%rdx, 120(%rsp)
	movq	512(%rsp), %rdx
	movq	%rdx, 64(%rsi)
	movdqa	496(%rsp), %xmm0
	movdqu	%xmm0, 48(%rsi)
	movb	%al, 152(%rsp)
	movl	304(%rsp), %eax
	movl	307(%rsp), %edx
	movl	%edx, 76(%rsi)
	movl	%eax, 73(%rsi)
	movq	$0, 160(%rsp)
	movq	%rcx, 208(%rsp)
	jmp	.LBB37d7e3d0_560
.LBB37d7e3d0_565:
	movzbl	-79(%rbx), %r11d
	addb	%r11b, %r14b
	cmpb	%sil, %r14b
	jb	.LBB37d7e3d0_634
	jmp	.LBB37d7e3d0_757
.LBB37d7e3d0_566:
	movzbl	72(%rsp), %r12d
	movzbl	80(%rsp), %ebp
	movq	88(%rsp), %rax
	movq	%rax, 48(%rsp)
	movq	96(%rsp), %r13
	movq	104(%rsp), %rbx
	movq	112(%rsp), %r14
	movq	120(%rsp), %rax
	movq	%rax, 16(%rsp)
	movl	140(%rsp), %eax
	movl	%eax, 40(%rsp)
	movzbl	144(%rsp), %eax
	movb	%al, 8(%rsp)
	leaq	80(%rsp), %rcx
	movq	48(%rcx), %rax
	movq	%rax, 416(%rsp)
	movl	56(%rcx), %eax
	movl	%eax, 424(%rsp)
	movdqu	65(%rcx), %xmm0
	movdqa	%xmm0, 576(%rsp)
	movq	80(%rcx), %rax
	movq	%rax, 591(%rsp)
	pxor	%xmm0, %xmm0
	movdqa	%xmm0, 304(%rsp)
	movq	$0, 319(%rsp)
	movzbl	%bpl, %eax
	leaq	.LJTI37d7e3d0_10(%rip), %rcx
	movslq	(%rcx,%rax,4), %rax
	addq	%rcx, %rax
	jmpq	*%rax
.LBB37d7e3d0_567:
	movzbl	8(%rsp), %eax
	jmp	.LBB37d7e3d0_612
.LBB37d7e3d0_568:
	cmpq	$0, 320(%rsp)
	je	.LBB37d7e3d0_852
	movq	304(%rsp), %rdi
	jmp	.LBB37d7e3d0_851
.LBB37d7e3d0_571:
	movq	%r8, 176(%rsp)
	movq	%rdi, 32(%rsp)
	movq	%rax, 352(%rsp)
	cmpb	$1, 20(%rax)
	jne	.LBB37d7e3d0_603
	movq	352(%rsp), %r14
	movl	24(%r14), %eax
	movzbl	16(%r14), %ecx
	movl	$1, %edx
	shlq	%cl, %rdx
	cmpq	%rax, %rdx
	movq	32(%rsp), %rdi
	movq	176(%rsp), %r8
	movq	384(%rsp), %rsi
	je	.LBB37d7e3d0_265
	jmp	.LBB37d7e3d0_604
.LBB37d7e3d0_573:
	movq	-72(%r12), %rdx
	movb	$3, %cl
	cmpq	$8, %rdx
	jb	.LBB37d7e3d0_667
	leal	1(%r13), %ecx
	xorl	%esi, %esi
	subb	$3, %cl
	movzbl	%cl, %ecx
	cmovbl	%esi, %ecx
	cmpb	$6, %cl
	jb	.LBB37d7e3d0_668
	movzbl	%cl, %esi
	leaq	-5(%rsi), %r8
	movl	$5, %ecx
	cmpq	$64, %r8
	jae	.LBB37d7e3d0_662
.LBB37d7e3d0_576:
	movl	$3, %r8d
	shlq	%cl, %r8
	shrq	$2, %r8
	cmpq	%r8, %rdx
	jbe	.LBB37d7e3d0_667
	incq	%rcx
	cmpq	%rcx, %rsi
	jne	.LBB37d7e3d0_576
	jmp	.LBB37d7e3d0_668
.LBB37d7e3d0_578:
	movzbl	80(%rsp), %eax
	movq	%rax, 960(%rsp)
	leaq	80(%rsp), %rax
	movups	8(%rax), %xmm0
	movups	24(%rax), %xmm1
	movups	40(%rax), %xmm2
	movups	56(%rax), %xmm3
	movups	%xmm0, 968(%rsp)
	movups	%xmm1, 984(%rsp)
	movups	%xmm2, 1000(%rsp)
	movups	%xmm3, 1016(%rsp)
	movups	72(%rax), %xmm0
	movups	%xmm0, 1032(%rsp)
	leaq	960(%rsp), %rax
	movq	%rdi, %rbx
	movq	%rax, %rdi
	callq	hll_sketch.mode.Mode.drop.309f015d8caa795c
	movq	%rbx, %rdi
	jmp	.LBB37d7e3d0_853
.LBB37d7e3d0_579:
	movq	%rdi, %r12
	movq	%r8, %rbx
	movq	%r8, %rdi
	callq	std_alloc.vec.Vec.grow_amortized.f10ba080d3fae16a
	testb	%al, %al
	je	.LBB37d7e3d0_608
	movq	%rbx, %r8
	movq	8(%rbx), %rax
	movq	%r12, %rdi
	jmp	.LBB37d7e3d0_218
.LBB37d7e3d0_581:
	leal	(%rax,%rax,4), %eax
	movzbl	%cl, %ecx
	leal	(%rcx,%rax,2), %eax
	movzbl	3(%r15), %ecx
	addb	$-48, %cl
	movl	$3, %r9d
	cmpb	$9, %cl
	ja	.LBB37d7e3d0_589
	cmpq	$4, 16(%rsp)
	je	.LBB37d7e3d0_144
	leal	(%rax,%rax,4), %eax
	movzbl	%cl, %ecx
	leal	(%rcx,%rax,2), %eax
	movzbl	4(%r15), %ecx
	addb	$-48, %cl
	movl	$4, %r9d
	cmpb	$9, %cl
	ja	.LBB37d7e3d0_589
	cmpq	$5, 16(%rsp)
	je	.LBB37d7e3d0_144
	leal	(%rax,%rax,4), %eax
	movzbl	%cl, %ecx
	leal	(%rcx,%rax,2), %eax
	movzbl	5(%r15), %ecx
	addb	$-48, %cl
	movl	$5, %r9d
	cmpb	$9, %cl
	ja	.LBB37d7e3d0_589
	cmpq	$6, 16(%rsp)
	je	.LBB37d7e3d0_144
	movzbl	6(%r15), %edx
	addb	$-48, %dl
	cmpb	$10, %dl
	jb	.LBB37d7e3d0_144
	leal	(%rax,%rax,4), %eax
	movzbl	%cl, %ecx
	leal	(%rcx,%rax,2), %eax
	movl	$6, %r9d
.LBB37d7e3d0_589:
	movq	%r14, %rdi
	movq	16(%rsp), %rdx
	xorl	%ecx, %ecx
	testq	%r9, %r9
	jne	.LBB37d7e3d0_184
	jmp	.LBB37d7e3d0_107
.LBB37d7e3d0_845:
	movq	%r14, %rdi
	movq	%r12, %rsi
	xorl	%ecx, %ecx
	testq	%rax, %rax
	jne	.LBB37d7e3d0_176
	jmp	.LBB37d7e3d0_107
.LBB37d7e3d0_591:
	leaq	28(%rdi), %r14
	movl	$8, %r13d
.LBB37d7e3d0_592:
	movzbl	8(%rdi), %ecx
	movl	%eax, %r11d
	shrl	%cl, %r11d
	movq	$-1, %r15
	shlq	%cl, %r15
	orl	$1, %r11d
	notq	%r15
	movq	%rax, %rcx
.LBB37d7e3d0_593:
	andq	%r15, %rcx
	movl	(%r14,%rcx,4), %r12d
	testl	%r12d, %r12d
	je	.LBB37d7e3d0_596
	movl	%r12d, %edx
	andl	$67108863, %edx
	cmpl	%eax, %edx
	je	.LBB37d7e3d0_596
	addq	%r11, %rcx
	decq	%r13
	jne	.LBB37d7e3d0_593
	jmp	.LBB37d7e3d0_631
.LBB37d7e3d0_596:
	testl	%r12d, %r12d
	je	.LBB37d7e3d0_631
	shrl	$26, %r12d
	cmpl	%r12d, %esi
	jbe	.LBB37d7e3d0_757
	cmpb	$0, 176(%rsp)
	je	.LBB37d7e3d0_626
	movq	40(%rdi), %rcx
	testq	%rcx, %rcx
	je	.LBB37d7e3d0_631
	movq	32(%rdi), %rdi
	jmp	.LBB37d7e3d0_627
.LBB37d7e3d0_601:
	movq	%rax, %rdi
	callq	std_alloc.vec.Vec.grow_amortized.f10ba080d3fae16a
	testb	%al, %al
	je	.LBB37d7e3d0_643
	movq	%rbx, %rax
	movq	8(%rbx), %rcx
	movq	%r14, %rdi
	jmp	.LBB37d7e3d0_269
.LBB37d7e3d0_603:
	movq	352(%rsp), %r14
	movq	32(%r14), %rdi
	movq	40(%r14), %rsi
	callq	hll_kernels.kernels.all_zero
	testb	%al, %al
	movq	32(%rsp), %rdi
	movq	176(%rsp), %r8
	movq	384(%rsp), %rsi
	jne	.LBB37d7e3d0_265
.LBB37d7e3d0_604:
	leaq	96(%r14), %rcx
	movq	408(%rsp), %r9
	notq	%r9
	movq	%rcx, 336(%rsp)
	movq	432(%rsp), %rdx
	movq	%rdx, %rax
	addq	%rdx, %r9
	movq	%r9, 368(%rsp)
	movq	%r9, %rdx
	je	.LBB37d7e3d0_753
.LBB37d7e3d0_605:
	cmpb	%bl, (%rcx)
	jb	.LBB37d7e3d0_265
	addq	$96, %rcx
	decq	%rdx
	jne	.LBB37d7e3d0_605
	leaq	56(%r14), %rax
	movq	%rax, 448(%rsp)
	leaq	81(%r14), %rax
	movq	%rax, 600(%rsp)
	xorl	%ebx, %ebx
	jmp	.LBB37d7e3d0_710
.LBB37d7e3d0_608:
	movq	$3, 72(%rsp)
	pxor	%xmm0, %xmm0
	movdqu	%xmm0, 80(%rsp)
	movdqu	%xmm0, 96(%rsp)
	movdqu	%xmm0, 112(%rsp)
	movb	%r14b, 128(%rsp)
	movdqu	%xmm0, 129(%rsp)
	movq	$0, 144(%rsp)
	movq	$0, 64(%rsp)
	leaq	64(%rsp), %rdi
	callq	hll_sketch.mode.Mode.drop.309f015d8caa795c
	movb	$5, %bl
	jmp	.LBB37d7e3d0_241
.LBB37d7e3d0_644:
	movq	%r8, %r12
	xorl	%ecx, %ecx
	testq	%r9, %r9
	jne	.LBB37d7e3d0_201
	jmp	.LBB37d7e3d0_107
.LBB37d7e3d0_609:
	movb	$2, %al
	jmp	.LBB37d7e3d0_612
.LBB37d7e3d0_610:
	xorl	%eax, %eax
	jmp	.LBB37d7e3d0_612
.LBB37d7e3d0_611:
	movb	$1, %al
.LBB37d7e3d0_612:
	movq	384(%rsp), %rsi
.LBB37d7e3d0_613:
	cmpb	%sil, %al
	jne	.LBB37d7e3d0_615
	movl	424(%rsp), %eax
	movl	%eax, 872(%rsp)
	movq	416(%rsp), %rax
	movq	%rax, 864(%rsp)
	movaps	576(%rsp), %xmm0
	movaps	%xmm0, 304(%rsp)
	movq	591(%rsp), %rax
	jmp	.LBB37d7e3d0_877
.LBB37d7e3d0_615:
	movdqa	%xmm0, 208(%rsp)
	movdqa	%xmm0, 224(%rsp)
	movdqa	%xmm0, 240(%rsp)
	movdqa	%xmm0, 256(%rsp)
	movdqa	%xmm0, 272(%rsp)
	movdqa	%xmm0, 288(%rsp)
	movzbl	%bpl, %eax
	leaq	.LJTI37d7e3d0_11(%rip), %rcx
	movslq	(%rcx,%rax,4), %rax
	addq	%rcx, %rax
	jmpq	*%rax
.LBB37d7e3d0_616:
	movzbl	%bl, %eax
	shrq	$32, %rbx
	movq	48(%rsp), %rcx
	movq	%rcx, 224(%rsp)
	movq	%r13, 232(%rsp)
	movl	%eax, 240(%rsp)
	movl	%ebx, 244(%rsp)
	movq	%r14, 248(%rsp)
	movq	16(%rsp), %rax
	movq	%rax, 256(%rsp)
	movq	416(%rsp), %rax
	movq	%rax, 264(%rsp)
	movl	424(%rsp), %eax
	movl	%eax, 272(%rsp)
	movb	%sil, 280(%rsp)
	movdqu	%xmm0, 281(%rsp)
	movq	$0, 296(%rsp)
	xorl	%ebp, %ebp
	jmp	.LBB37d7e3d0_625
.LBB37d7e3d0_617:
	movq	48(%rsp), %rax
	movq	%rax, 64(%rsp)
	movq	%r13, 72(%rsp)
	movq	%rbx, 80(%rsp)
	movq	%r14, 88(%rsp)
	movq	16(%rsp), %rax
	movq	%rax, 96(%rsp)
	movq	416(%rsp), %rax
	movq	%rax, 104(%rsp)
	movl	424(%rsp), %eax
	movl	%eax, 112(%rsp)
	movl	40(%rsp), %eax
	movl	%eax, 116(%rsp)
	movzbl	8(%rsp), %eax
	movb	%al, 120(%rsp)
	movq	576(%rsp), %rax
	movq	583(%rsp), %rcx
	movq	%rax, 121(%rsp)
	movq	%rcx, 128(%rsp)
	movzbl	%sil, %edx
	leaq	208(%rsp), %rdi
	leaq	64(%rsp), %rsi
	callq	hll_sketch.mode.array_into_mode.8a2f8b2564a2651f
	movzbl	208(%rsp), %eax
	movq	%rax, 384(%rsp)
	movzbl	209(%rsp), %r15d
	movzbl	216(%rsp), %ebp
	jmp	.LBB37d7e3d0_874
.LBB37d7e3d0_618:
	movq	48(%rsp), %rcx
	movq	%rcx, 960(%rsp)
	movq	%r13, 968(%rsp)
	movq	%rbx, 976(%rsp)
	movq	%r14, 984(%rsp)
	movq	16(%rsp), %rax
	movq	%rax, 992(%rsp)
	movq	416(%rsp), %rax
	movq	%rax, 1000(%rsp)
	movl	424(%rsp), %eax
	movl	%eax, 1008(%rsp)
	movl	40(%rsp), %eax
	movl	%eax, 1012(%rsp)
	movzbl	8(%rsp), %eax
	movb	%al, 1016(%rsp)
	movdqa	576(%rsp), %xmm1
	movdqu	%xmm1, 1017(%rsp)
	movq	591(%rsp), %rax
	movq	%rax, 1032(%rsp)
	movdqa	%xmm0, 64(%rsp)
	movdqa	%xmm0, 80(%rsp)
	movdqa	%xmm0, 96(%rsp)
	movdqa	%xmm0, 112(%rsp)
	movdqa	%xmm0, 128(%rsp)
	movdqa	%xmm0, 144(%rsp)
	movdqa	%xmm0, 736(%rsp)
	movdqa	%xmm0, 720(%rsp)
	movdqa	%xmm0, 704(%rsp)
	movdqa	%xmm0, 688(%rsp)
	movdqa	%xmm0, 672(%rsp)
	movzbl	%cl, %esi
	leaq	672(%rsp), %rdi
	leaq	960(%rsp), %rdx
	callq	hll_sketch.register_folds.fold_of_registers.64a1999876867b1f
	cmpb	$0, 672(%rsp)
	je	.LBB37d7e3d0_650
	movzbl	673(%rsp), %r15d
	pxor	%xmm0, %xmm0
	movdqa	%xmm0, 224(%rsp)
	movdqa	%xmm0, 240(%rsp)
	movdqa	%xmm0, 256(%rsp)
	movdqa	%xmm0, 272(%rsp)
	movdqa	%xmm0, 288(%rsp)
	movb	$1, %al
	movq	%rax, 384(%rsp)
	xorl	%ebp, %ebp
	jmp	.LBB37d7e3d0_651
.LBB37d7e3d0_620:
	movdqa	%xmm0, 64(%rsp)
	movdqa	%xmm0, 80(%rsp)
	movdqa	%xmm0, 96(%rsp)
	movdqa	%xmm0, 112(%rsp)
	movdqa	%xmm0, 128(%rsp)
	movdqa	%xmm0, 144(%rsp)
	movl	$1, %eax
	movq	48(%rsp), %rcx
	shlq	%cl, %rax
	movq	%rax, 352(%rsp)
	cmpb	$63, %cl
	je	.LBB37d7e3d0_642
	movl	$1, %esi
	movq	352(%rsp), %rdi
	callq	rattle_alloc@PLT
	movq	%rdx, 336(%rsp)
	testb	$1, %al
	je	.LBB37d7e3d0_642
	cmpb	$0, 48(%rsp)
	je	.LBB37d7e3d0_769
	movq	352(%rsp), %rax
	leaq	-1(%rax), %r14
	movq	336(%rsp), %rdi
	xorl	%esi, %esi
	movq	%r14, %rdx
	callq	memset@PLT
	jmp	.LBB37d7e3d0_770
.LBB37d7e3d0_624:
	movzbl	%bl, %eax
	shrq	$32, %rbx
	movq	48(%rsp), %rcx
	movq	%rcx, 224(%rsp)
	movq	%r13, 232(%rsp)
	movl	%eax, 240(%rsp)
	movl	%ebx, 244(%rsp)
	movq	%r14, 248(%rsp)
	movq	16(%rsp), %rax
	movq	%rax, 256(%rsp)
	movq	416(%rsp), %rax
	movq	%rax, 264(%rsp)
	movl	424(%rsp), %eax
	movl	%eax, 272(%rsp)
	movb	%sil, 280(%rsp)
	movdqu	%xmm0, 281(%rsp)
	movq	$0, 296(%rsp)
	movb	$1, %bpl
.LBB37d7e3d0_625:
	xorl	%r15d, %r15d
	movq	$0, 384(%rsp)
	jmp	.LBB37d7e3d0_874
.LBB37d7e3d0_626:
	addq	$28, %rdi
	movl	$8, %ecx
.LBB37d7e3d0_627:
	movq	%rax, %r12
.LBB37d7e3d0_628:
	andq	%r15, %r12
	movl	(%rdi,%r12,4), %r14d
	testl	%r14d, %r14d
	je	.LBB37d7e3d0_632
	movl	%r14d, %edx
	andl	$67108863, %edx
	cmpl	%eax, %edx
	je	.LBB37d7e3d0_632
	addq	%r11, %r12
	decq	%rcx
	jne	.LBB37d7e3d0_628
.LBB37d7e3d0_631:
	ud2
.LBB37d7e3d0_632:
	testl	%r14d, %r14d
	je	.LBB37d7e3d0_631
	shrl	$26, %r14d
	movzbl	-79(%rbx), %r11d
.LBB37d7e3d0_634:
	leaq	-80(%rbx), %rdi
	movl	-76(%rbx), %ecx
	cmpb	%r11b, %r14b
	jne	.LBB37d7e3d0_637
	cmpl	$1, %ecx
	jne	.LBB37d7e3d0_637
	movzbl	%sil, %edx
	movl	%eax, %esi
	callq	hll_registers.nibble_registers.NibbleRegisters.rise.8a2f8b2564a2651f
	jmp	.LBB37d7e3d0_640
.LBB37d7e3d0_637:
	xorl	%edx, %edx
	cmpb	%r11b, %r14b
	sete	%dl
	subl	%edx, %ecx
	leal	15(%r11), %edx
	cmpb	%sil, %dl
	jbe	.LBB37d7e3d0_639
	subb	%r11b, %sil
	andb	$-16, %r9b
	addb	%sil, %r9b
	shlb	$4, %sil
	orb	%r10b, %sil
	testb	$1, %al
	movzbl	%r9b, %eax
	movzbl	%sil, %edx
	cmovel	%eax, %edx
	movq	16(%rsp), %rax
	movb	%dl, (%rax,%r8)
	movl	%ecx, -76(%rbx)
	movq	32(%rsp), %rdi
	jmp	.LBB37d7e3d0_641
.LBB37d7e3d0_639:
	movzbl	%sil, %edx
	movl	%eax, %esi
	callq	hll_registers.nibble_registers.NibbleRegisters.put_high.8a2f8b2564a2651f
.LBB37d7e3d0_640:
	testb	%al, %al
	movq	32(%rsp), %rdi
	jne	.LBB37d7e3d0_257
.LBB37d7e3d0_641:
	pxor	%xmm0, %xmm0
	movdqu	%xmm0, -32(%rbx)
	movq	$0, -16(%rbx)
	movb	$1, -8(%rbx)
	movl	$0, -7(%rbx)
	movl	$0, -4(%rbx)
	jmp	.LBB37d7e3d0_2
.LBB37d7e3d0_642:
	pxor	%xmm0, %xmm0
	movdqa	%xmm0, 288(%rsp)
	movdqa	%xmm0, 272(%rsp)
	movdqa	%xmm0, 256(%rsp)
	movdqa	%xmm0, 240(%rsp)
	movdqa	%xmm0, 224(%rsp)
	movb	$12, %r15b
	movb	$1, %al
	movq	%rax, 384(%rsp)
	xorl	%ebp, %ebp
	jmp	.LBB37d7e3d0_871
.LBB37d7e3d0_643:
	movups	64(%r15), %xmm0
	movups	%xmm0, 280(%rsp)
	movdqu	(%r15), %xmm0
	movdqu	16(%r15), %xmm1
	movdqu	32(%r15), %xmm2
	movdqu	48(%r15), %xmm3
	movdqu	%xmm3, 264(%rsp)
	movdqu	%xmm2, 248(%rsp)
	movdqu	%xmm1, 232(%rsp)
	movdqu	%xmm0, 216(%rsp)
	movq	%r12, 208(%rsp)
	leaq	208(%rsp), %rdi
	callq	hll_sketch.mode.Mode.drop.309f015d8caa795c
	movb	$5, %bl
	movb	$1, %bpl
	jmp	.LBB37d7e3d0_288
.LBB37d7e3d0_648:
	movl	$512, %ecx
	movq	%r14, %rdi
	jmp	.LBB37d7e3d0_179
.LBB37d7e3d0_649:
	xorl	%ecx, %ecx
	movq	%r14, %rdi
	jmp	.LBB37d7e3d0_179
.LBB37d7e3d0_650:
	movq	712(%rsp), %rax
	movq	%rax, 912(%rsp)
	movups	680(%rsp), %xmm0
	movups	696(%rsp), %xmm1
	movups	1008(%rsp), %xmm2
	movdqu	1024(%rsp), %xmm3
	movups	%xmm2, 920(%rsp)
	movdqu	%xmm3, 936(%rsp)
	movups	%xmm0, 502(%rsp)
	movups	%xmm1, 518(%rsp)
	movq	912(%rsp), %rax
	movq	%rax, 534(%rsp)
	movq	920(%rsp), %rax
	movq	%rax, 542(%rsp)
	movaps	928(%rsp), %xmm0
	movups	%xmm0, 550(%rsp)
	movq	944(%rsp), %rax
	movq	%rax, 566(%rsp)
	movq	566(%rsp), %rax
	movq	%rax, 736(%rsp)
	movups	502(%rsp), %xmm0
	movdqu	518(%rsp), %xmm1
	movq	534(%rsp), %rax
	movq	542(%rsp), %rcx
	movdqu	550(%rsp), %xmm2
	movdqa	%xmm2, 720(%rsp)
	movq	%rax, 704(%rsp)
	movq	%rcx, 712(%rsp)
	movdqa	%xmm1, 688(%rsp)
	movaps	%xmm0, 672(%rsp)
	movzbl	384(%rsp), %edx
	leaq	64(%rsp), %rdi
	leaq	672(%rsp), %rsi
	callq	hll_sketch.mode.array_into_mode.8a2f8b2564a2651f
	movzbl	64(%rsp), %eax
	movq	%rax, 384(%rsp)
	movzbl	65(%rsp), %r15d
	movzbl	72(%rsp), %ebp
	movaps	80(%rsp), %xmm0
	movaps	%xmm0, 224(%rsp)
	movaps	96(%rsp), %xmm0
	movaps	%xmm0, 240(%rsp)
	movaps	112(%rsp), %xmm0
	movaps	%xmm0, 256(%rsp)
	movaps	128(%rsp), %xmm0
	movaps	%xmm0, 272(%rsp)
	movdqa	144(%rsp), %xmm0
	movdqa	%xmm0, 288(%rsp)
.LBB37d7e3d0_651:
	movq	1000(%rsp), %rbx
	testq	%r14, %r14
	je	.LBB37d7e3d0_653
	movq	%r13, %rdi
	callq	rattle_dealloc@PLT
.LBB37d7e3d0_653:
	cmpb	$0, 16(%rsp)
	je	.LBB37d7e3d0_874
	movq	32(%rbx), %rax
	movq	%rax, 16(%rsp)
	movq	48(%rbx), %r13
	movzbl	24(%rbx), %r14d
	movq	%rbx, %rdi
	callq	rattle_dealloc@PLT
	testb	%r14b, %r14b
	je	.LBB37d7e3d0_874
	testq	%r13, %r13
	je	.LBB37d7e3d0_874
	movq	16(%rsp), %rdi
	jmp	.LBB37d7e3d0_873
.LBB37d7e3d0_657:
	movq	%r8, %r9
	andq	$-16, %r9
	leaq	5(%r9), %rcx
	movq	%rdx, %xmm0
	pshufd	$68, %xmm0, %xmm0
	movdqa	%xmm0, 432(%rsp)
	leaq	-16(%r9), %r10
	movdqa	.LCPI37d7e3d0_5(%rip), %xmm4
	movdqa	.LCPI37d7e3d0_6(%rip), %xmm5
	movdqa	.LCPI37d7e3d0_7(%rip), %xmm14
	movdqa	.LCPI37d7e3d0_8(%rip), %xmm13
	movdqa	.LCPI37d7e3d0_9(%rip), %xmm6
	movdqa	.LCPI37d7e3d0_10(%rip), %xmm7
	movdqa	.LCPI37d7e3d0_11(%rip), %xmm8
	movdqa	.LCPI37d7e3d0_12(%rip), %xmm9
	movl	$11, %r11d
.LBB37d7e3d0_658:
	movdqa	%xmm13, 384(%rsp)
	movdqa	%xmm14, 48(%rsp)
	movdqa	%xmm5, 176(%rsp)
	movdqa	%xmm4, 16(%rsp)
	movdqa	.LCPI37d7e3d0_13(%rip), %xmm10
	movdqa	%xmm10, %xmm0
	psllq	%xmm9, %xmm0
	pshufd	$238, %xmm9, %xmm1
	movdqa	%xmm10, %xmm11
	psllq	%xmm1, %xmm11
	pblendw	$15, %xmm0, %xmm11
	movdqa	%xmm10, %xmm0
	psllq	%xmm8, %xmm0
	pshufd	$238, %xmm8, %xmm2
	movdqa	%xmm10, %xmm1
	psllq	%xmm2, %xmm1
	pblendw	$15, %xmm0, %xmm1
	movdqa	%xmm10, %xmm0
	psllq	%xmm7, %xmm0
	pshufd	$238, %xmm7, %xmm2
	movdqa	%xmm10, %xmm12
	psllq	%xmm2, %xmm12
	pblendw	$15, %xmm0, %xmm12
	movdqa	%xmm10, %xmm0
	psllq	%xmm6, %xmm0
	pshufd	$238, %xmm6, %xmm3
	movdqa	%xmm10, %xmm2
	psllq	%xmm3, %xmm2
	pblendw	$15, %xmm0, %xmm2
	movdqa	%xmm10, %xmm0
	psllq	%xmm13, %xmm0
	pshufd	$238, %xmm13, %xmm3
	movdqa	%xmm10, %xmm13
	psllq	%xmm3, %xmm13
	pblendw	$15, %xmm0, %xmm13
	movdqa	%xmm10, %xmm0
	psllq	%xmm14, %xmm0
	pshufd	$238, %xmm14, %xmm3
	movdqa	%xmm10, %xmm15
	psllq	%xmm3, %xmm15
	pblendw	$15, %xmm0, %xmm15
	movdqa	%xmm10, %xmm0
	psllq	%xmm5, %xmm0
	pshufd	$238, %xmm5, %xmm3
	movdqa	%xmm10, %xmm14
	psllq	%xmm3, %xmm14
	pblendw	$15, %xmm0, %xmm14
	movdqa	%xmm10, %xmm0
	psllq	%xmm4, %xmm0
	pshufd	$238, %xmm4, %xmm3
	psllq	%xmm3, %xmm10
	pblendw	$15, %xmm0, %xmm10
	psrlq	$2, %xmm15
	psrlq	$2, %xmm13
	psrlq	$2, %xmm2
	psrlq	$2, %xmm12
	psrlq	$2, %xmm1
	psrlq	$2, %xmm11
	movdqa	.LCPI37d7e3d0_14(%rip), %xmm4
	por	%xmm4, %xmm11
	movdqa	432(%rsp), %xmm0
	pxor	%xmm4, %xmm0
	movdqa	%xmm0, %xmm3
	pcmpgtq	%xmm11, %xmm3
	por	%xmm4, %xmm1
	movdqa	%xmm0, %xmm5
	pcmpgtq	%xmm1, %xmm5
	packssdw	%xmm5, %xmm3
	pcmpeqd	%xmm5, %xmm5
	por	%xmm4, %xmm12
	movdqa	%xmm0, %xmm11
	pcmpgtq	%xmm12, %xmm11
	por	%xmm4, %xmm2
	movdqa	%xmm0, %xmm1
	pcmpgtq	%xmm2, %xmm1
	movdqa	%xmm3, %xmm2
	pxor	%xmm5, %xmm2
	packssdw	%xmm1, %xmm11
	movdqa	%xmm11, %xmm1
	pxor	%xmm5, %xmm1
	packssdw	%xmm1, %xmm2
	por	%xmm4, %xmm13
	movdqa	%xmm0, %xmm12
	pcmpgtq	%xmm13, %xmm12
	movdqa	384(%rsp), %xmm13
	por	%xmm4, %xmm15
	movdqa	%xmm0, %xmm1
	pcmpgtq	%xmm15, %xmm1
	psrlq	$2, %xmm14
	packssdw	%xmm1, %xmm12
	por	%xmm4, %xmm14
	movdqa	%xmm0, %xmm1
	pcmpgtq	%xmm14, %xmm1
	movdqa	48(%rsp), %xmm14
	psrlq	$2, %xmm10
	por	%xmm4, %xmm10
	movdqa	16(%rsp), %xmm4
	pcmpgtq	%xmm10, %xmm0
	packssdw	%xmm0, %xmm1
	movdqa	%xmm12, %xmm0
	pxor	%xmm5, %xmm0
	pxor	%xmm1, %xmm5
	packssdw	%xmm5, %xmm0
	movdqa	176(%rsp), %xmm5
	packsswb	%xmm0, %xmm2
	pmovmskb	%xmm2, %r14d
	leaq	-16(%r11), %rbx
	testl	%r14d, %r14d
	jne	.LBB37d7e3d0_660
	addq	%r10, %r11
	movdqa	.LCPI37d7e3d0_15(%rip), %xmm0
	paddq	%xmm0, %xmm9
	paddq	%xmm0, %xmm8
	paddq	%xmm0, %xmm7
	paddq	%xmm0, %xmm6
	paddq	%xmm0, %xmm13
	paddq	%xmm0, %xmm14
	paddq	%xmm0, %xmm5
	paddq	%xmm0, %xmm4
	cmpq	$11, %r11
	movq	%rbx, %r11
	jne	.LBB37d7e3d0_658
.LBB37d7e3d0_660:
	testw	%r14w, %r14w
	jne	.LBB37d7e3d0_666
	cmpl	%r9d, %r8d
	jne	.LBB37d7e3d0_276
	jmp	.LBB37d7e3d0_668
.LBB37d7e3d0_662:
	movq	%r8, %r9
	andq	$-16, %r9
	leaq	5(%r9), %rcx
	movq	%rdx, %xmm0
	pshufd	$68, %xmm0, %xmm0
	movdqa	%xmm0, 432(%rsp)
	leaq	-16(%r9), %r10
	movdqa	.LCPI37d7e3d0_5(%rip), %xmm4
	movdqa	.LCPI37d7e3d0_6(%rip), %xmm5
	movdqa	.LCPI37d7e3d0_7(%rip), %xmm14
	movdqa	.LCPI37d7e3d0_8(%rip), %xmm13
	movdqa	.LCPI37d7e3d0_9(%rip), %xmm6
	movdqa	.LCPI37d7e3d0_10(%rip), %xmm7
	movdqa	.LCPI37d7e3d0_11(%rip), %xmm8
	movdqa	.LCPI37d7e3d0_12(%rip), %xmm9
	movl	$11, %r11d
.LBB37d7e3d0_663:
	movdqa	%xmm13, 384(%rsp)
	movdqa	%xmm14, 48(%rsp)
	movdqa	%xmm5, 176(%rsp)
	movdqa	%xmm4, 16(%rsp)
	movdqa	.LCPI37d7e3d0_13(%rip), %xmm10
	movdqa	%xmm10, %xmm0
	psllq	%xmm9, %xmm0
	pshufd	$238, %xmm9, %xmm1
	movdqa	%xmm10, %xmm11
	psllq	%xmm1, %xmm11
	pblendw	$15, %xmm0, %xmm11
	movdqa	%xmm10, %xmm0
	psllq	%xmm8, %xmm0
	pshufd	$238, %xmm8, %xmm2
	movdqa	%xmm10, %xmm1
	psllq	%xmm2, %xmm1
	pblendw	$15, %xmm0, %xmm1
	movdqa	%xmm10, %xmm0
	psllq	%xmm7, %xmm0
	pshufd	$238, %xmm7, %xmm2
	movdqa	%xmm10, %xmm12
	psllq	%xmm2, %xmm12
	pblendw	$15, %xmm0, %xmm12
	movdqa	%xmm10, %xmm0
	psllq	%xmm6, %xmm0
	pshufd	$238, %xmm6, %xmm3
	movdqa	%xmm10, %xmm2
	psllq	%xmm3, %xmm2
	pblendw	$15, %xmm0, %xmm2
	movdqa	%xmm10, %xmm0
	psllq	%xmm13, %xmm0
	pshufd	$238, %xmm13, %xmm3
	movdqa	%xmm10, %xmm13
	psllq	%xmm3, %xmm13
	pblendw	$15, %xmm0, %xmm13
	movdqa	%xmm10, %xmm0
	psllq	%xmm14, %xmm0
	pshufd	$238, %xmm14, %xmm3
	movdqa	%xmm10, %xmm15
	psllq	%xmm3, %xmm15
	pblendw	$15, %xmm0, %xmm15
	movdqa	%xmm10, %xmm0
	psllq	%xmm5, %xmm0
	pshufd	$238, %xmm5, %xmm3
	movdqa	%xmm10, %xmm14
	psllq	%xmm3, %xmm14
	pblendw	$15, %xmm0, %xmm14
	movdqa	%xmm10, %xmm0
	psllq	%xmm4, %xmm0
	pshufd	$238, %xmm4, %xmm3
	psllq	%xmm3, %xmm10
	pblendw	$15, %xmm0, %xmm10
	psrlq	$2, %xmm15
	psrlq	$2, %xmm13
	psrlq	$2, %xmm2
	psrlq	$2, %xmm12
	psrlq	$2, %xmm1
	psrlq	$2, %xmm11
	movdqa	.LCPI37d7e3d0_14(%rip), %xmm4
	por	%xmm4, %xmm11
	movdqa	432(%rsp), %xmm0
	pxor	%xmm4, %xmm0
	movdqa	%xmm0, %xmm3
	pcmpgtq	%xmm11, %xmm3
	por	%xmm4, %xmm1
	movdqa	%xmm0, %xmm5
	pcmpgtq	%xmm1, %xmm5
	packssdw	%xmm5, %xmm3
	pcmpeqd	%xmm5, %xmm5
	por	%xmm4, %xmm12
	movdqa	%xmm0, %xmm11
	pcmpgtq	%xmm12, %xmm11
	por	%xmm4, %xmm2
	movdqa	%xmm0, %xmm1
	pcmpgtq	%xmm2, %xmm1
	movdqa	%xmm3, %xmm2
	pxor	%xmm5, %xmm2
	packssdw	%xmm1, %xmm11
	movdqa	%xmm11, %xmm1
	pxor	%xmm5, %xmm1
	packssdw	%xmm1, %xmm2
	por	%xmm4, %xmm13
	movdqa	%xmm0, %xmm12
	pcmpgtq	%xmm13, %xmm12
	movdqa	384(%rsp), %xmm13
	por	%xmm4, %xmm15
	movdqa	%xmm0, %xmm1
	pcmpgtq	%xmm15, %xmm1
	psrlq	$2, %xmm14
	packssdw	%xmm1, %xmm12
	por	%xmm4, %xmm14
	movdqa	%xmm0, %xmm1
	pcmpgtq	%xmm14, %xmm1
	movdqa	48(%rsp), %xmm14
	psrlq	$2, %xmm10
	por	%xmm4, %xmm10
	movdqa	16(%rsp), %xmm4
	pcmpgtq	%xmm10, %xmm0
	packssdw	%xmm0, %xmm1
	movdqa	%xmm12, %xmm0
	pxor	%xmm5, %xmm0
	pxor	%xmm1, %xmm5
	packssdw	%xmm5, %xmm0
	movdqa	176(%rsp), %xmm5
	packsswb	%xmm0, %xmm2
	pmovmskb	%xmm2, %r14d
	leaq	-16(%r11), %rbx
	testl	%r14d, %r14d
	jne	.LBB37d7e3d0_665
	addq	%r10, %r11
	movdqa	.LCPI37d7e3d0_15(%rip), %xmm0
	paddq	%xmm0, %xmm9
	paddq	%xmm0, %xmm8
	paddq	%xmm0, %xmm7
	paddq	%xmm0, %xmm6
	paddq	%xmm0, %xmm13
	paddq	%xmm0, %xmm14
	paddq	%xmm0, %xmm5
	paddq	%xmm0, %xmm4
	cmpq	$11, %r11
	movq	%rbx, %r11
	jne	.LBB37d7e3d0_663
.LBB37d7e3d0_665:
	testw	%r14w, %r14w
	je	.LBB37d7e3d0_768
.LBB37d7e3d0_666:
	pcmpeqd	%xmm0, %xmm0
	pxor	%xmm0, %xmm3
	pxor	%xmm0, %xmm11
	packssdw	%xmm11, %xmm3
	pxor	%xmm0, %xmm12
	pxor	%xmm0, %xmm1
	packssdw	%xmm1, %xmm12
	packsswb	%xmm12, %xmm3
	pand	.LCPI37d7e3d0_16(%rip), %xmm3
	pextrb	$1, %xmm3, %ecx
	movd	%xmm3, %edx
	cmpb	%cl, %dl
	cmoval	%edx, %ecx
	pextrb	$2, %xmm3, %edx
	cmpb	%dl, %cl
	cmovbel	%edx, %ecx
	pextrb	$3, %xmm3, %edx
	cmpb	%dl, %cl
	cmovbel	%edx, %ecx
	pextrb	$4, %xmm3, %edx
	cmpb	%dl, %cl
	cmovbel	%edx, %ecx
	pextrb	$5, %xmm3, %edx
	cmpb	%dl, %cl
	cmovbel	%edx, %ecx
	pextrb	$6, %xmm3, %edx
	cmpb	%dl, %cl
	cmovbel	%edx, %ecx
	pextrb	$7, %xmm3, %edx
	cmpb	%dl, %cl
	cmovbel	%edx, %ecx
	pextrb	$8, %xmm3, %edx
	cmpb	%dl, %cl
	cmovbel	%edx, %ecx
	pextrb	$9, %xmm3, %edx
	cmpb	%dl, %cl
	cmovbel	%edx, %ecx
	pextrb	$10, %xmm3, %edx
	cmpb	%dl, %cl
	cmovbel	%edx, %ecx
	pextrb	$11, %xmm3, %edx
	cmpb	%dl, %cl
	cmovbel	%edx, %ecx
	pextrb	$12, %xmm3, %edx
	cmpb	%dl, %cl
	cmovbel	%edx, %ecx
	pextrb	$13, %xmm3, %edx
	cmpb	%dl, %cl
	cmovbel	%edx, %ecx
	pextrb	$14, %xmm3, %edx
	cmpb	%dl, %cl
	cmovbel	%edx, %ecx
	pextrb	$15, %xmm3, %edx
	cmpb	%dl, %cl
	cmovbel	%edx, %ecx
	movb	$16, %dl
	subb	%cl, %dl
	movzbl	%dl, %ecx
	subq	%rbx, %rcx
.LBB37d7e3d0_667:
	cmpb	-80(%r12), %cl
	je	.LBB37d7e3d0_2
.LBB37d7e3d0_668:
	pxor	%xmm0, %xmm0
	movdqa	%xmm0, 560(%rsp)
	movdqa	%xmm0, 544(%rsp)
	movdqa	%xmm0, 528(%rsp)
	movdqa	%xmm0, 512(%rsp)
	movdqa	%xmm0, 496(%rsp)
	movb	$11, %cl
	cmpb	$4, %r13b
	jb	.LBB37d7e3d0_839
	movq	%rdi, 32(%rsp)
	movdqa	%xmm0, 288(%rsp)
	movdqa	%xmm0, 272(%rsp)
	movdqa	%xmm0, 256(%rsp)
	movdqa	%xmm0, 240(%rsp)
	movdqa	%xmm0, 224(%rsp)
	movdqa	%xmm0, 208(%rsp)
	movzbl	-88(%r12), %ecx
	movl	%ecx, 16(%rsp)
	movzbl	%cl, %ecx
	leal	-2(%rcx), %edx
	cmpl	$3, %edx
	jae	.LBB37d7e3d0_679
	movdqa	%xmm0, 64(%rsp)
	movdqa	%xmm0, 80(%rsp)
	movdqa	%xmm0, 96(%rsp)
	movdqa	%xmm0, 112(%rsp)
	movdqa	%xmm0, 128(%rsp)
	movdqa	%xmm0, 144(%rsp)
	movdqa	%xmm0, 960(%rsp)
	movdqa	%xmm0, 976(%rsp)
	movdqa	%xmm0, 992(%rsp)
	movdqa	%xmm0, 1008(%rsp)
	movdqa	%xmm0, 1024(%rsp)
	cmpb	%r13b, %al
	jne	.LBB37d7e3d0_680
	movdqa	%xmm0, 304(%rsp)
	movq	$0, 319(%rsp)
	movdqa	%xmm0, 576(%rsp)
	movq	$0, 591(%rsp)
	movdqa	%xmm0, 624(%rsp)
	movq	$0, 639(%rsp)
	cmpl	$4, %ecx
	je	.LBB37d7e3d0_684
	cmpl	$3, %ecx
	jne	.LBB37d7e3d0_688
	movzbl	-80(%r12), %eax
	movq	%rax, 176(%rsp)
	movq	-64(%r12), %r14
	movq	-56(%r12), %r15
	testq	%r15, %r15
	je	.LBB37d7e3d0_692
	movabsq	$3074457345618258602, %rax
	cmpq	%rax, %r15
	ja	.LBB37d7e3d0_836
	leaq	(%r15,%r15,2), %rdi
	movl	$1, %esi
	movq	%rdi, 48(%rsp)
	callq	rattle_alloc@PLT
	testb	$1, %al
	je	.LBB37d7e3d0_836
	movq	%rdx, %rbx
	movq	%rdx, %rax
	subq	%r14, %rax
	leaq	(%r15,%r15,2), %rcx
	cmpq	%rcx, %rax
	jae	.LBB37d7e3d0_693
	movl	%r15d, %eax
	andl	$7, %eax
	cmpq	$8, %r15
	jae	.LBB37d7e3d0_854
	xorl	%ecx, %ecx
	jmp	.LBB37d7e3d0_857
.LBB37d7e3d0_679:
	cmpl	$1, %ecx
	leaq	-80(%r12), %rcx
	movzbl	-24(%r12), %edx
	movzbl	%r13b, %esi
	leaq	208(%rsp), %rdi
	callq	hll_sketch.folding.mode_of_coupons.8a2f8b2564a2651f
	jmp	.LBB37d7e3d0_838
.LBB37d7e3d0_680:
	leaq	-88(%r12), %rbx
	movzbl	%r13b, %edx
	leaq	960(%rsp), %rdi
	movq	%rbx, %rsi
	callq	hll_sketch.folding.fold_of.8a2f8b2564a2651f
	cmpb	$0, 960(%rsp)
	je	.LBB37d7e3d0_682
	movzbl	961(%rsp), %eax
	movb	$1, 208(%rsp)
	movb	%al, 209(%rsp)
	pxor	%xmm0, %xmm0
	movdqu	%xmm0, 216(%rsp)
	movdqu	%xmm0, 232(%rsp)
	movdqu	%xmm0, 248(%rsp)
	movdqu	%xmm0, 264(%rsp)
	movdqu	%xmm0, 280(%rsp)
	movq	$0, 296(%rsp)
	jmp	.LBB37d7e3d0_838
.LBB37d7e3d0_682:
	leaq	968(%rsp), %rsi
	movzbl	(%rbx), %eax
	leaq	.LJTI37d7e3d0_2(%rip), %rcx
	movslq	(%rcx,%rax,4), %rax
	addq	%rcx, %rax
	jmpq	*%rax
.LBB37d7e3d0_683:
	movzbl	-24(%r12), %eax
	jmp	.LBB37d7e3d0_767
.LBB37d7e3d0_684:
	movzbl	-80(%r12), %eax
	movq	%rax, 176(%rsp)
	movq	-64(%r12), %r14
	movq	-56(%r12), %r15
	testq	%r15, %r15
	je	.LBB37d7e3d0_695
	js	.LBB37d7e3d0_836
	movl	$1, %esi
	movq	%r15, %rdi
	callq	rattle_alloc@PLT
	testb	$1, %al
	je	.LBB37d7e3d0_836
	movq	%rdx, %rbx
	jmp	.LBB37d7e3d0_696
.LBB37d7e3d0_688:
	movzwl	-80(%r12), %eax
	movq	%rax, 384(%rsp)
	movl	-76(%r12), %eax
	movq	%rax, 48(%rsp)
	movq	-72(%r12), %r15
	movq	-64(%r12), %rbx
	testq	%rbx, %rbx
	je	.LBB37d7e3d0_701
	js	.LBB37d7e3d0_836
	movl	$1, %esi
	movq	%rbx, %rdi
	callq	rattle_alloc@PLT
	testb	$1, %al
	je	.LBB37d7e3d0_836
	movq	%rdx, %r14
	jmp	.LBB37d7e3d0_702
.LBB37d7e3d0_692:
	leaq	4(%rsp), %rbx
	movq	$0, 48(%rsp)
.LBB37d7e3d0_693:
	movq	%rbx, %rdi
	movq	%r14, %rsi
	movq	48(%rsp), %rdx
	callq	memmove@PLT
.LBB37d7e3d0_694:
	movzbl	-76(%r12), %esi
	movl	-72(%r12), %r14d
	movq	-40(%r12), %rdx
	movsd	-32(%r12), %xmm0
	movzbl	-24(%r12), %eax
	shlq	$32, %rsi
	addq	176(%rsp), %rsi
	movq	-16(%r12), %rcx
	movq	%rcx, 583(%rsp)
	movq	-23(%r12), %rcx
	movq	%rcx, 576(%rsp)
	movq	591(%rsp), %rcx
	movq	%rcx, 319(%rsp)
	movq	576(%rsp), %rcx
	movq	%rcx, 304(%rsp)
	movl	584(%rsp), %ecx
	movl	%ecx, 312(%rsp)
	movzwl	588(%rsp), %ecx
	movw	%cx, 316(%rsp)
	movzbl	590(%rsp), %ecx
	movb	%cl, 318(%rsp)
	movzbl	591(%rsp), %ecx
	jmp	.LBB37d7e3d0_797
.LBB37d7e3d0_695:
	leaq	4(%rsp), %rbx
.LBB37d7e3d0_696:
	movq	%rbx, %rcx
	subq	%r14, %rcx
	cmpq	%r15, %rcx
	jae	.LBB37d7e3d0_758
	xorl	%eax, %eax
	cmpq	$4, %r15
	jb	.LBB37d7e3d0_791
	cmpq	$32, %rcx
	jb	.LBB37d7e3d0_791
	cmpq	$32, %r15
	jae	.LBB37d7e3d0_784
	xorl	%eax, %eax
	jmp	.LBB37d7e3d0_788
.LBB37d7e3d0_701:
	leaq	4(%rsp), %r14
.LBB37d7e3d0_702:
	movq	%r14, %rcx
	subq	%r15, %rcx
	cmpq	%rbx, %rcx
	jae	.LBB37d7e3d0_759
	xorl	%eax, %eax
	cmpq	$4, %rbx
	jb	.LBB37d7e3d0_805
	cmpq	$32, %rcx
	jb	.LBB37d7e3d0_805
	cmpq	$32, %rbx
	jae	.LBB37d7e3d0_798
	xorl	%eax, %eax
	jmp	.LBB37d7e3d0_802
.LBB37d7e3d0_707:
	movzbl	%dl, %edx
	movq	%r15, %rdi
	movq	%r12, %rsi
	movq	%rax, %rcx
	callq	hll_registers.folds.max_by_stages.8fbc67663473d8ac
.LBB37d7e3d0_708:
	pxor	%xmm0, %xmm0
	movq	448(%rsp), %rax
	movdqu	%xmm0, (%rax)
	movq	$0, 16(%rax)
	movq	352(%rsp), %r14
	movb	$1, 80(%r14)
	movq	600(%rsp), %rax
	movl	$0, 3(%rax)
	movl	$0, (%rax)
	movq	376(%rsp), %rbx
.LBB37d7e3d0_709:
	incq	%rbx
	cmpq	368(%rsp), %rbx
	je	.LBB37d7e3d0_752
.LBB37d7e3d0_710:
	leaq	(%rbx,%rbx,2), %rax
	shlq	$5, %rax
	movq	336(%rsp), %rcx
	leaq	(%rcx,%rax), %rdx
	movzbl	8(%rcx,%rax), %eax
	leaq	.LJTI37d7e3d0_3(%rip), %rcx
	movslq	(%rcx,%rax,4), %rax
	addq	%rcx, %rax
	movq	%rdx, 16(%rsp)
	jmpq	*%rax
.LBB37d7e3d0_711:
	cmpq	$0, 24(%rdx)
	je	.LBB37d7e3d0_709
	movq	16(%rsp), %rsi
	addq	$16, %rsi
	movq	%r14, %rdi
	callq	hll_sketch.sketch.HllSketch.add_each.8a2f8b2564a2651f
	jmp	.LBB37d7e3d0_709
.LBB37d7e3d0_713:
	movq	%rbx, 376(%rsp)
	cmpb	$1, 20(%rdx)
	jne	.LBB37d7e3d0_748
	movq	16(%rsp), %rcx
	movl	24(%rcx), %eax
	movzbl	16(%rcx), %ecx
	movl	$1, %edx
	shlq	%cl, %rdx
	cmpq	%rax, %rdx
	movq	352(%rsp), %r14
	movq	376(%rsp), %rbx
	je	.LBB37d7e3d0_709
	jmp	.LBB37d7e3d0_749
.LBB37d7e3d0_715:
	cmpb	$0, 17(%rdx)
	jne	.LBB37d7e3d0_717
	movq	16(%rsp), %rcx
	movl	20(%rcx), %eax
	movzbl	16(%rcx), %ecx
	movl	$1, %edx
	shlq	%cl, %rdx
	cmpq	%rax, %rdx
	je	.LBB37d7e3d0_709
.LBB37d7e3d0_717:
	movq	%rbx, 376(%rsp)
	cmpb	$4, 8(%r14)
	jne	.LBB37d7e3d0_631
	movq	16(%rsp), %rax
	addq	$16, %rax
	movq	352(%rsp), %rcx
	movq	$0, 20(%rcx)
	movq	32(%rcx), %r15
	movq	40(%rcx), %r12
	movzbl	16(%rcx), %edx
	movzbl	(%rax), %esi
	cmpb	$13, %dl
	ja	.LBB37d7e3d0_722
	cmpb	$15, %sil
	jb	.LBB37d7e3d0_722
	movq	16(%rsp), %rcx
	cmpb	$1, 48(%rcx)
	jne	.LBB37d7e3d0_722
	movq	16(%rsp), %rcx
	movq	56(%rcx), %rcx
	movzbl	8(%rcx), %ecx
	movl	$4, %edi
	shlq	%cl, %rdi
	cmpq	$8193, %rdi
	jae	.LBB37d7e3d0_707
.LBB37d7e3d0_722:
	subb	%dl, %sil
	movzbl	%sil, %r13d
	movq	16(%rsp), %rbp
	movl	$1, %r14d
	xorl	%ebx, %ebx
.LBB37d7e3d0_723:
	movq	24(%rbp), %rcx
	movzbl	17(%rbp), %r9d
	movq	%r15, %rdi
	movq	%r12, %rsi
	movl	%ebx, %edx
	leaq	48(%rbp), %r8
	callq	hll_registers.exception_map.max_with_registers.309f015d8caa795c
	movq	%r14, %rax
	movl	%r13d, %ecx
	shrq	%cl, %rax
	incq	%r14
	addl	%r12d, %ebx
	testq	%rax, %rax
	je	.LBB37d7e3d0_723
	jmp	.LBB37d7e3d0_708
.LBB37d7e3d0_724:
	movq	32(%rdx), %rdi
	movq	40(%rdx), %rax
	leaq	(%rax,%rax,2), %rsi
	callq	hll_kernels.kernels.all_zero
	testb	%al, %al
	jne	.LBB37d7e3d0_709
	movq	%rbx, 376(%rsp)
	cmpb	$4, 8(%r14)
	jne	.LBB37d7e3d0_631
	movq	352(%rsp), %rcx
	movq	$0, 20(%rcx)
	movq	32(%rcx), %r9
	movq	40(%rcx), %r15
	movq	16(%rsp), %rbx
	movzbl	16(%rbx), %eax
	subb	16(%rcx), %al
	movzbl	%al, %ecx
	movq	%r15, %rax
	shrq	$2, %rax
	leaq	(%rax,%rax,2), %rbp
	movq	%r15, %rax
	shrq	$6, %rax
	movq	%rax, 384(%rsp)
	shlq	$4, %rax
	leaq	(%rax,%rax,2), %rax
	movq	%rax, 48(%rsp)
	subq	%rax, %rbp
	movq	%r15, %r8
	andq	$-64, %r8
	leaq	(%r9,%r8), %r11
	movabsq	$-6148914691236517205, %rdx
	movq	%rbp, %rax
	mulq	%rdx
	shrq	%rdx
	leaq	-1(%rdx), %rax
	leaq	(%r9,%r8), %rsi
	incq	%rsi
	leaq	2(%r9,%r8), %rdi
	movq	%r9, 8(%rsp)
	leaq	(%r9,%r8), %r10
	addq	$3, %r10
	leaq	(%r11,%rdx,4), %r8
	addq	$-4, %r8
	cmpq	%r11, %r8
	setb	%r8b
	movabsq	$4611686018427387903, %r9
	cmpq	%r9, %rax
	seta	%al
	leaq	(%r11,%rdx,4), %r9
	addq	$-3, %r9
	cmpq	%rsi, %r9
	setb	%sil
	orb	%r8b, %sil
	leaq	(%r11,%rdx,4), %r8
	addq	$-2, %r8
	cmpq	%rdi, %r8
	setb	%dil
	leaq	(%r11,%rdx,4), %r8
	decq	%r8
	cmpq	%r10, %r8
	setb	%r8b
	orb	%al, %sil
	orb	%dil, %r8b
	orb	%sil, %r8b
	movb	%r8b, 40(%rsp)
	movq	%rdx, %rsi
	movabsq	$9223372036854775792, %rax
	andq	%rax, %rsi
	movq	%rsi, 616(%rsp)
	addq	$8, %rax
	andq	%rdx, %rax
	movq	%rax, 856(%rsp)
	xorl	%r13d, %r13d
	xorl	%eax, %eax
	movq	%r15, 472(%rsp)
	movq	%rcx, 464(%rsp)
	movq	%rbp, 456(%rsp)
	jmp	.LBB37d7e3d0_728
.LBB37d7e3d0_727:
	incq	%rax
	movq	%rax, %rsi
	shrq	%cl, %rsi
	addl	%r15d, %r13d
	testq	%rsi, %rsi
	jne	.LBB37d7e3d0_708
.LBB37d7e3d0_728:
	movl	%r13d, %esi
	shrl	$2, %esi
	movq	32(%rbx), %r9
	leaq	(%rsi,%rsi,2), %r10
	cmpq	$64, %r15
	jb	.LBB37d7e3d0_731
	leaq	(%r9,%r10), %r8
	addq	$32, %r8
	movq	8(%rsp), %rsi
	movq	384(%rsp), %rdi
.LBB37d7e3d0_730:
	movdqa	.LCPI37d7e3d0_17(%rip), %xmm0
	movdqu	-32(%r8), %xmm1
	movdqu	-20(%r8), %xmm2
	movdqu	-8(%r8), %xmm4
	movdqu	(%r8), %xmm5
	pshufb	%xmm0, %xmm1
	pshufb	%xmm0, %xmm2
	pshufb	%xmm0, %xmm4
	pshufb	.LCPI37d7e3d0_18(%rip), %xmm5
	movdqa	%xmm2, %xmm0
	psllw	$4, %xmm0
	pblendw	$170, %xmm2, %xmm0
	movdqa	%xmm1, %xmm3
	psllw	$4, %xmm3
	pblendw	$170, %xmm1, %xmm3
	movdqa	%xmm4, %xmm1
	psllw	$4, %xmm1
	pblendw	$170, %xmm4, %xmm1
	movdqa	%xmm5, %xmm2
	psllw	$4, %xmm2
	pblendw	$170, %xmm5, %xmm2
	movdqa	%xmm1, %xmm4
	psrlw	$4, %xmm4
	movdqa	%xmm3, %xmm6
	psrlw	$4, %xmm6
	movdqa	%xmm0, %xmm7
	psrlw	$4, %xmm7
	movdqa	%xmm2, %xmm5
	psrlw	$4, %xmm5
	movdqa	.LCPI37d7e3d0_19(%rip), %xmm8
	pand	%xmm8, %xmm7
	pand	%xmm8, %xmm6
	pand	%xmm8, %xmm4
	pand	%xmm8, %xmm5
	psrlw	$2, %xmm1
	psrlw	$2, %xmm3
	psrlw	$2, %xmm0
	psrlw	$2, %xmm2
	movdqa	.LCPI37d7e3d0_20(%rip), %xmm8
	pand	%xmm8, %xmm0
	por	%xmm7, %xmm0
	pand	%xmm8, %xmm3
	por	%xmm6, %xmm3
	pand	%xmm8, %xmm1
	por	%xmm4, %xmm1
	pand	%xmm8, %xmm2
	por	%xmm5, %xmm2
	movdqu	(%rsi), %xmm4
	pmaxub	%xmm3, %xmm4
	movdqu	16(%rsi), %xmm3
	pmaxub	%xmm0, %xmm3
	movdqu	32(%rsi), %xmm0
	pmaxub	%xmm1, %xmm0
	movdqu	48(%rsi), %xmm1
	pmaxub	%xmm2, %xmm1
	movdqu	%xmm0, 32(%rsi)
	movdqu	%xmm1, 48(%rsi)
	movdqu	%xmm4, (%rsi)
	movdqu	%xmm3, 16(%rsi)
	addq	$48, %r8
	addq	$64, %rsi
	decq	%rdi
	jne	.LBB37d7e3d0_730
.LBB37d7e3d0_731:
	cmpq	$3, %rbp
	jb	.LBB37d7e3d0_727
	cmpq	$24, %rbp
	setb	%sil
	orb	40(%rsp), %sil
	testb	$1, %sil
	jne	.LBB37d7e3d0_733
	movl	%eax, %edi
	imull	%r15d, %edi
	shrl	$2, %edi
	leal	(%rdi,%rdi,2), %esi
	addq	%r9, %rsi
	movq	48(%rsp), %r8
	addq	%r8, %rsi
	leaq	(%r9,%r8), %r14
	leaq	(%r11,%rdx,4), %r8
	cmpq	%r8, %rsi
	jae	.LBB37d7e3d0_737
	leaq	(%rdi,%rdi,2), %rsi
	leaq	(%rdx,%rdx,2), %rdi
	addq	%rdi, %rsi
	addq	%r14, %rsi
	cmpq	%rsi, %r11
	jae	.LBB37d7e3d0_737
.LBB37d7e3d0_733:
	xorl	%r12d, %r12d
.LBB37d7e3d0_746:
	addq	48(%rsp), %r9
	leaq	(%r12,%r12,2), %rsi
	addq	%r10, %rsi
	addq	%r9, %rsi
	addq	$2, %rsi
.LBB37d7e3d0_747:
	movzbl	-2(%rsi), %edi
	movzbl	-1(%rsi), %r8d
	movzbl	(%rsi), %r9d
	shll	$8, %r8d
	movl	%r9d, %r10d
	shll	$16, %r10d
	orl	%r8d, %r10d
	orl	%edi, %r8d
	shrl	$6, %r8d
	shrl	$12, %r10d
	shrb	$2, %r9b
	andb	$63, %r10b
	movd	%edi, %xmm0
	pinsrb	$1, %r8d, %xmm0
	pand	.LCPI37d7e3d0_25(%rip), %xmm0
	movd	(%r11,%r12,4), %xmm1
	movzbl	%r10b, %edi
	pinsrb	$2, %edi, %xmm0
	movzbl	%r9b, %edi
	pinsrb	$3, %edi, %xmm0
	pmaxub	%xmm1, %xmm0
	movd	%xmm0, (%r11,%r12,4)
	incq	%r12
	addq	$3, %rsi
	cmpq	%r12, %rdx
	jne	.LBB37d7e3d0_747
	jmp	.LBB37d7e3d0_727
.LBB37d7e3d0_737:
	movq	%r9, 480(%rsp)
	cmpq	$48, %rbp
	movq	%r10, 608(%rsp)
	jae	.LBB37d7e3d0_742
	xorl	%edi, %edi
.LBB37d7e3d0_739:
	leaq	(%rdi,%rdi,2), %rcx
	addq	%r10, %rcx
	leaq	(%r14,%rcx), %rbp
	addq	$23, %rbp
	movq	856(%rsp), %r14
.LBB37d7e3d0_740:
	movzbl	-23(%rbp), %ecx
	movd	%ecx, %xmm3
	pinsrb	$1, -20(%rbp), %xmm3
	pinsrb	$2, -17(%rbp), %xmm3
	pinsrb	$3, -14(%rbp), %xmm3
	movzbl	-11(%rbp), %ecx
	movdqa	%xmm3, %xmm1
	pinsrb	$4, %ecx, %xmm1
	movzbl	-8(%rbp), %esi
	pinsrb	$5, %esi, %xmm1
	movzbl	-5(%rbp), %r9d
	pinsrb	$6, %r9d, %xmm1
	movzbl	-2(%rbp), %r10d
	pinsrb	$7, %r10d, %xmm1
	movzbl	-21(%rbp), %r8d
	movd	%r8d, %xmm2
	pinsrb	$1, -18(%rbp), %xmm2
	pinsrb	$2, -15(%rbp), %xmm2
	pinsrb	$3, -12(%rbp), %xmm2
	movzbl	-9(%rbp), %r15d
	movdqa	%xmm2, %xmm0
	pinsrb	$4, %r15d, %xmm0
	movzbl	-6(%rbp), %r8d
	pinsrb	$5, %r8d, %xmm0
	movzbl	-3(%rbp), %r12d
	pinsrb	$6, %r12d, %xmm0
	pmovzxbd	%xmm3, %xmm4
	movzbl	(%rbp), %ebx
	pinsrb	$7, %ebx, %xmm0
	pmovzxbd	%xmm2, %xmm2
	movd	%ecx, %xmm7
	pinsrb	$4, %esi, %xmm7
	pinsrb	$8, %r9d, %xmm7
	pinsrb	$12, %r10d, %xmm7
	movzbl	-10(%rbp), %ecx
	movd	%ecx, %xmm6
	pinsrb	$4, -7(%rbp), %xmm6
	pinsrb	$8, -4(%rbp), %xmm6
	pinsrb	$12, -1(%rbp), %xmm6
	movzbl	-22(%rbp), %ecx
	movd	%ecx, %xmm3
	pinsrb	$4, -19(%rbp), %xmm3
	pinsrb	$8, -16(%rbp), %xmm3
	pinsrb	$12, -13(%rbp), %xmm3
	pslld	$8, %xmm3
	movd	%r15d, %xmm5
	pinsrb	$4, %r8d, %xmm5
	pinsrb	$8, %r12d, %xmm5
	pinsrb	$12, %ebx, %xmm5
	pslld	$8, %xmm6
	pslld	$16, %xmm2
	pslld	$16, %xmm5
	por	%xmm6, %xmm5
	por	%xmm3, %xmm2
	por	%xmm7, %xmm6
	por	%xmm4, %xmm3
	movdqa	.LCPI37d7e3d0_23(%rip), %xmm4
	pand	%xmm4, %xmm1
	psrld	$6, %xmm3
	psrld	$6, %xmm6
	movdqa	.LCPI37d7e3d0_21(%rip), %xmm7
	pand	%xmm7, %xmm6
	pand	%xmm7, %xmm3
	packusdw	%xmm6, %xmm3
	pxor	%xmm6, %xmm6
	packuswb	%xmm6, %xmm3
	pand	%xmm4, %xmm3
	psrld	$12, %xmm2
	psrld	$12, %xmm5
	pand	%xmm7, %xmm5
	pand	%xmm7, %xmm2
	packusdw	%xmm5, %xmm2
	packuswb	%xmm6, %xmm2
	pand	%xmm4, %xmm2
	psrlw	$2, %xmm0
	pand	.LCPI37d7e3d0_22(%rip), %xmm0
	movzbl	(%r11,%rdi,4), %ecx
	movd	%ecx, %xmm4
	pinsrb	$1, 4(%r11,%rdi,4), %xmm4
	pinsrb	$2, 8(%r11,%rdi,4), %xmm4
	pinsrb	$3, 12(%r11,%rdi,4), %xmm4
	pinsrb	$4, 16(%r11,%rdi,4), %xmm4
	pinsrb	$5, 20(%r11,%rdi,4), %xmm4
	pinsrb	$6, 24(%r11,%rdi,4), %xmm4
	pinsrb	$7, 28(%r11,%rdi,4), %xmm4
	movzbl	1(%r11,%rdi,4), %ecx
	movd	%ecx, %xmm5
	pinsrb	$1, 5(%r11,%rdi,4), %xmm5
	pinsrb	$2, 9(%r11,%rdi,4), %xmm5
	pinsrb	$3, 13(%r11,%rdi,4), %xmm5
	pinsrb	$4, 17(%r11,%rdi,4), %xmm5
	pinsrb	$5, 21(%r11,%rdi,4), %xmm5
	pinsrb	$6, 25(%r11,%rdi,4), %xmm5
	pinsrb	$7, 29(%r11,%rdi,4), %xmm5
	pmaxub	%xmm1, %xmm4
	pmaxub	%xmm3, %xmm5
	movzbl	2(%r11,%rdi,4), %ecx
	movd	%ecx, %xmm1
	pinsrb	$1, 6(%r11,%rdi,4), %xmm1
	pinsrb	$2, 10(%r11,%rdi,4), %xmm1
	pinsrb	$3, 14(%r11,%rdi,4), %xmm1
	pinsrb	$4, 18(%r11,%rdi,4), %xmm1
	pinsrb	$5, 22(%r11,%rdi,4), %xmm1
	pinsrb	$6, 26(%r11,%rdi,4), %xmm1
	pinsrb	$7, 30(%r11,%rdi,4), %xmm1
	movzbl	3(%r11,%rdi,4), %ecx
	movd	%ecx, %xmm3
	pinsrb	$1, 7(%r11,%rdi,4), %xmm3
	pinsrb	$2, 11(%r11,%rdi,4), %xmm3
	pinsrb	$3, 15(%r11,%rdi,4), %xmm3
	pinsrb	$4, 19(%r11,%rdi,4), %xmm3
	pinsrb	$5, 23(%r11,%rdi,4), %xmm3
	pinsrb	$6, 27(%r11,%rdi,4), %xmm3
	pmaxub	%xmm2, %xmm1
	pinsrb	$7, 31(%r11,%rdi,4), %xmm3
	pmaxub	%xmm0, %xmm3
	movdqa	%xmm4, %xmm0
	punpcklqdq	%xmm5, %xmm0
	movdqa	%xmm1, %xmm2
	punpcklqdq	%xmm3, %xmm2
	movq	.LCPI37d7e3d0_26(%rip), %xmm6
	pshufb	%xmm6, %xmm0
	pshufb	%xmm6, %xmm2
	punpcklwd	%xmm2, %xmm0
	punpcklbw	%xmm5, %xmm4
	punpcklbw	%xmm3, %xmm1
	punpcklwd	%xmm1, %xmm4
	movdqu	%xmm4, (%r11,%rdi,4)
	movdqu	%xmm0, 16(%r11,%rdi,4)
	addq	$8, %rdi
	addq	$24, %rbp
	cmpq	%rdi, %r14
	jne	.LBB37d7e3d0_740
	movq	%r14, %r12
	cmpq	%r14, %rdx
	movq	16(%rsp), %rbx
	movq	472(%rsp), %r15
	movq	464(%rsp), %rcx
	movq	456(%rsp), %rbp
	movq	480(%rsp), %r9
	movq	608(%rsp), %r10
	je	.LBB37d7e3d0_727
	jmp	.LBB37d7e3d0_746
.LBB37d7e3d0_742:
	leaq	(%r10,%r14), %rdi
	addq	$47, %rdi
	xorl	%ebp, %ebp
	movq	616(%rsp), %r12
.LBB37d7e3d0_743:
	movzbl	-47(%rdi), %ecx
	movd	%ecx, %xmm3
	movzbl	-35(%rdi), %r9d
	movzbl	-32(%rdi), %ecx
	pinsrb	$1, -44(%rdi), %xmm3
	movzbl	-45(%rdi), %esi
	movd	%esi, %xmm2
	pinsrb	$2, -41(%rdi), %xmm3
	pinsrb	$1, -42(%rdi), %xmm2
	pinsrb	$3, -38(%rdi), %xmm3
	movzbl	-29(%rdi), %r8d
	pinsrb	$2, -39(%rdi), %xmm2
	movdqa	%xmm3, %xmm0
	pinsrb	$3, -36(%rdi), %xmm2
	pinsrb	$4, %r9d, %xmm0
	movzbl	-33(%rdi), %r10d
	movdqa	%xmm2, %xmm1
	pinsrb	$4, %r10d, %xmm1
	movzbl	-26(%rdi), %ebx
	movzbl	-30(%rdi), %esi
	pinsrb	$5, %ecx, %xmm0
	movd	%r9d, %xmm4
	movzbl	-27(%rdi), %r9d
	pinsrb	$5, %esi, %xmm1
	pinsrb	$4, %ecx, %xmm4
	pinsrb	$6, %r8d, %xmm0
	pinsrb	$8, %r8d, %xmm4
	pinsrb	$6, %r9d, %xmm1
	movzbl	-23(%rdi), %r8d
	movzbl	-24(%rdi), %ecx
	pinsrb	$7, %ebx, %xmm0
	pinsrb	$12, %ebx, %xmm4
	pinsrb	$7, %ecx, %xmm1
	movzbl	-20(%rdi), %ebx
	movd	%r8d, %xmm10
	pinsrb	$8, %r8d, %xmm0
	pinsrb	$4, %ebx, %xmm10
	pinsrb	$9, %ebx, %xmm0
	movzbl	-17(%rdi), %r15d
	movzbl	-21(%rdi), %r8d
	pinsrb	$8, %r8d, %xmm1
	movd	%r8d, %xmm6
	movzbl	-18(%rdi), %r8d
	pinsrb	$9, %r8d, %xmm1
	pinsrb	$8, %r15d, %xmm10
	pinsrb	$10, %r15d, %xmm0
	movzbl	-14(%rdi), %ebx
	pinsrb	$4, %r8d, %xmm6
	movzbl	-10(%rdi), %r8d
	movd	%r8d, %xmm8
	movzbl	-15(%rdi), %r8d
	pinsrb	$10, %r8d, %xmm1
	pinsrb	$12, %ebx, %xmm10
	pinsrb	$11, %ebx, %xmm0
	movzbl	-11(%rdi), %ebx
	movd	%ebx, %xmm15
	pinsrb	$12, %ebx, %xmm0
	movzbl	-34(%rdi), %ebx
	pinsrb	$8, %r8d, %xmm6
	movzbl	-22(%rdi), %r8d
	movd	%r8d, %xmm7
	movzbl	-12(%rdi), %r8d
	pinsrb	$11, %r8d, %xmm1
	movd	%ebx, %xmm9
	movzbl	-9(%rdi), %ebx
	pinsrb	$12, %ebx, %xmm1
	movd	%ebx, %xmm12
	pinsrb	$12, %r8d, %xmm6
	movzbl	-8(%rdi), %r8d
	pinsrb	$4, %r8d, %xmm15
	pinsrb	$13, %r8d, %xmm0
	movd	%r10d, %xmm11
	pinsrb	$4, %esi, %xmm11
	movzbl	-6(%rdi), %esi
	pinsrb	$4, %esi, %xmm12
	pinsrb	$13, %esi, %xmm1
	movzbl	-5(%rdi), %esi
	pinsrb	$8, %r9d, %xmm11
	movzbl	-2(%rdi), %r10d
	pinsrb	$8, %esi, %xmm15
	pinsrb	$14, %esi, %xmm0
	movzbl	-46(%rdi), %r8d
	pinsrb	$12, %ecx, %xmm11
	movzbl	-3(%rdi), %esi
	movd	%r8d, %xmm5
	movzbl	(%r11,%rbp,4), %ecx
	movd	%ecx, %xmm13
	movzbl	1(%r11,%rbp,4), %ecx
	movd	%ecx, %xmm14
	movzbl	(%rdi), %ecx
	pinsrb	$4, -7(%rdi), %xmm8
	pinsrb	$8, -4(%rdi), %xmm8
	pinsrb	$12, -1(%rdi), %xmm8
	pinsrb	$8, %esi, %xmm12
	pinsrb	$12, %r10d, %xmm15
	pinsrb	$12, %ecx, %xmm12
	pslld	$16, %xmm12
	pslld	$8, %xmm8
	por	%xmm8, %xmm12
	por	%xmm15, %xmm8
	pinsrb	$14, %esi, %xmm1
	movzbl	3(%r11,%rbp,4), %esi
	movd	%esi, %xmm15
	pinsrb	$15, %r10d, %xmm0
	pinsrb	$4, -19(%rdi), %xmm7
	pinsrb	$8, -16(%rdi), %xmm7
	pinsrb	$12, -13(%rdi), %xmm7
	pslld	$16, %xmm6
	pslld	$8, %xmm7
	por	%xmm7, %xmm6
	por	%xmm10, %xmm7
	pinsrb	$15, %ecx, %xmm1
	movzbl	2(%r11,%rbp,4), %ecx
	movd	%ecx, %xmm10
	pinsrb	$4, -31(%rdi), %xmm9
	pinsrb	$4, -43(%rdi), %xmm5
	pinsrb	$8, -28(%rdi), %xmm9
	pinsrb	$8, -40(%rdi), %xmm5
	pinsrb	$12, -25(%rdi), %xmm9
	pinsrb	$1, 4(%r11,%rbp,4), %xmm13
	pinsrb	$12, -37(%rdi), %xmm5
	pmovzxbd	%xmm3, %xmm3
	pinsrb	$2, 8(%r11,%rbp,4), %xmm13
	pmovzxbd	%xmm2, %xmm2
	pslld	$16, %xmm11
	pinsrb	$3, 12(%r11,%rbp,4), %xmm13
	pslld	$8, %xmm9
	por	%xmm9, %xmm11
	pinsrb	$4, 16(%r11,%rbp,4), %xmm13
	por	%xmm4, %xmm9
	pslld	$8, %xmm5
	pinsrb	$5, 20(%r11,%rbp,4), %xmm13
	pslld	$16, %xmm2
	por	%xmm5, %xmm2
	pinsrb	$6, 24(%r11,%rbp,4), %xmm13
	por	%xmm3, %xmm5
	psrld	$6, %xmm9
	pinsrb	$7, 28(%r11,%rbp,4), %xmm13
	psrld	$6, %xmm7
	psrld	$6, %xmm8
	pinsrb	$1, 5(%r11,%rbp,4), %xmm14
	psrld	$6, %xmm5
	movdqa	.LCPI37d7e3d0_21(%rip), %xmm3
	pinsrb	$2, 9(%r11,%rbp,4), %xmm14
	pand	%xmm3, %xmm8
	psrld	$12, %xmm11
	pinsrb	$3, 13(%r11,%rbp,4), %xmm14
	pand	%xmm3, %xmm7
	psrld	$12, %xmm6
	pinsrb	$4, 17(%r11,%rbp,4), %xmm14
	pand	%xmm3, %xmm9
	psrld	$12, %xmm12
	pinsrb	$5, 21(%r11,%rbp,4), %xmm14
	psrld	$12, %xmm2
	pinsrb	$6, 25(%r11,%rbp,4), %xmm14
	pinsrb	$8, 32(%r11,%rbp,4), %xmm13
	pand	%xmm3, %xmm12
	pinsrb	$7, 29(%r11,%rbp,4), %xmm14
	packusdw	%xmm8, %xmm7
	pand	%xmm3, %xmm6
	pinsrb	$8, 33(%r11,%rbp,4), %xmm14
	pand	%xmm3, %xmm5
	pand	%xmm3, %xmm11
	pinsrb	$1, 7(%r11,%rbp,4), %xmm15
	packusdw	%xmm12, %xmm6
	pand	%xmm3, %xmm2
	pinsrb	$2, 11(%r11,%rbp,4), %xmm15
	packusdw	%xmm9, %xmm5
	pinsrb	$3, 15(%r11,%rbp,4), %xmm15
	pinsrb	$9, 36(%r11,%rbp,4), %xmm13
	pinsrb	$4, 19(%r11,%rbp,4), %xmm15
	pinsrb	$9, 37(%r11,%rbp,4), %xmm14
	packusdw	%xmm11, %xmm2
	pinsrb	$5, 23(%r11,%rbp,4), %xmm15
	packuswb	%xmm7, %xmm5
	movdqa	.LCPI37d7e3d0_22(%rip), %xmm3
	pinsrb	$6, 27(%r11,%rbp,4), %xmm15
	packuswb	%xmm6, %xmm2
	pinsrb	$7, 31(%r11,%rbp,4), %xmm15
	pinsrb	$10, 40(%r11,%rbp,4), %xmm13
	pinsrb	$8, 35(%r11,%rbp,4), %xmm15
	pinsrb	$10, 41(%r11,%rbp,4), %xmm14
	pinsrb	$9, 39(%r11,%rbp,4), %xmm15
	pinsrb	$11, 44(%r11,%rbp,4), %xmm13
	pinsrb	$10, 43(%r11,%rbp,4), %xmm15
	pinsrb	$11, 45(%r11,%rbp,4), %xmm14
	pinsrb	$11, 47(%r11,%rbp,4), %xmm15
	pinsrb	$12, 48(%r11,%rbp,4), %xmm13
	pinsrb	$1, 6(%r11,%rbp,4), %xmm10
	pinsrb	$12, 49(%r11,%rbp,4), %xmm14
	pinsrb	$2, 10(%r11,%rbp,4), %xmm10
	pinsrb	$12, 51(%r11,%rbp,4), %xmm15
	pinsrb	$3, 14(%r11,%rbp,4), %xmm10
	pinsrb	$13, 52(%r11,%rbp,4), %xmm13
	pinsrb	$4, 18(%r11,%rbp,4), %xmm10
	pinsrb	$13, 53(%r11,%rbp,4), %xmm14
	pinsrb	$5, 22(%r11,%rbp,4), %xmm10
	pinsrb	$13, 55(%r11,%rbp,4), %xmm15
	pinsrb	$6, 26(%r11,%rbp,4), %xmm10
	pinsrb	$14, 56(%r11,%rbp,4), %xmm13
	pinsrb	$7, 30(%r11,%rbp,4), %xmm10
	pinsrb	$14, 57(%r11,%rbp,4), %xmm14
	pinsrb	$8, 34(%r11,%rbp,4), %xmm10
	pinsrb	$14, 59(%r11,%rbp,4), %xmm15
	pinsrb	$9, 38(%r11,%rbp,4), %xmm10
	pinsrb	$15, 60(%r11,%rbp,4), %xmm13
	pinsrb	$10, 42(%r11,%rbp,4), %xmm10
	pinsrb	$15, 61(%r11,%rbp,4), %xmm14
	pinsrb	$11, 46(%r11,%rbp,4), %xmm10
	pinsrb	$15, 63(%r11,%rbp,4), %xmm15
	pand	%xmm3, %xmm2
	pinsrb	$12, 50(%r11,%rbp,4), %xmm10
	psrlw	$2, %xmm1
	pand	%xmm3, %xmm5
	pinsrb	$13, 54(%r11,%rbp,4), %xmm10
	pand	%xmm3, %xmm1
	pand	%xmm3, %xmm0
	pinsrb	$14, 58(%r11,%rbp,4), %xmm10
	pmaxub	%xmm0, %xmm13
	pmaxub	%xmm5, %xmm14
	pinsrb	$15, 62(%r11,%rbp,4), %xmm10
	pmaxub	%xmm1, %xmm15
	pmaxub	%xmm2, %xmm10
	movdqa	%xmm13, %xmm0
	movdqa	%xmm10, %xmm1
	punpcklbw	%xmm14, %xmm0
	punpcklbw	%xmm15, %xmm1
	movdqa	%xmm0, %xmm2
	punpckhbw	%xmm14, %xmm13
	punpckhwd	%xmm1, %xmm0
	punpckhbw	%xmm15, %xmm10
	movdqa	%xmm13, %xmm3
	punpcklwd	%xmm10, %xmm3
	punpcklwd	%xmm1, %xmm2
	punpckhwd	%xmm10, %xmm13
	movdqu	%xmm13, 48(%r11,%rbp,4)
	movdqu	%xmm3, 32(%r11,%rbp,4)
	movdqu	%xmm0, 16(%r11,%rbp,4)
	movdqu	%xmm2, (%r11,%rbp,4)
	addq	$16, %rbp
	addq	$48, %rdi
	cmpq	%rbp, %r12
	jne	.LBB37d7e3d0_743
	cmpq	%r12, %rdx
	movq	16(%rsp), %rbx
	movq	472(%rsp), %r15
	movq	464(%rsp), %rcx
	movq	456(%rsp), %rbp
	movq	480(%rsp), %r9
	movq	608(%rsp), %r10
	je	.LBB37d7e3d0_727
	movq	616(%rsp), %r12
	movq	%r12, %rdi
	testb	$8, %dl
	jne	.LBB37d7e3d0_739
	jmp	.LBB37d7e3d0_746
.LBB37d7e3d0_748:
	movq	16(%rsp), %rax
	movq	32(%rax), %rdi
	movq	40(%rax), %rsi
	callq	hll_kernels.kernels.all_zero
	testb	%al, %al
	movq	352(%rsp), %r14
	movq	376(%rsp), %rbx
	jne	.LBB37d7e3d0_709
.LBB37d7e3d0_749:
	cmpb	$4, 8(%r14)
	jne	.LBB37d7e3d0_631
	movq	352(%rsp), %rcx
	movq	$0, 20(%rcx)
	movq	32(%rcx), %r15
	movq	16(%rsp), %r14
	movzbl	16(%r14), %eax
	subb	16(%rcx), %al
	movq	40(%rcx), %r12
	movzbl	%al, %r13d
	movl	$1, %ebx
	xorl	%ebp, %ebp
.LBB37d7e3d0_751:
	movl	%ebp, %edx
	addq	32(%r14), %rdx
	movq	%r15, %rdi
	movq	%r12, %rsi
	movq	%r12, %rcx
	callq	hll_kernels.kernels.max_into
	movq	%rbx, %rax
	movl	%r13d, %ecx
	shrq	%cl, %rax
	incq	%rbx
	addq	%r12, %rbp
	testq	%rax, %rax
	je	.LBB37d7e3d0_751
	jmp	.LBB37d7e3d0_708
.LBB37d7e3d0_752:
	movq	848(%rsp), %rax
	movq	(%rax), %rax
.LBB37d7e3d0_753:
	movq	408(%rsp), %rcx
	incq	%rcx
	cmpq	%rcx, %rax
	jbe	.LBB37d7e3d0_757
	movq	%rcx, %rbp
	movq	176(%rsp), %rcx
	movq	(%rcx), %r14
	movq	16(%rcx), %rbx
	pxor	%xmm0, %xmm0
	movq	848(%rsp), %rcx
	movdqu	%xmm0, (%rcx)
	leaq	72(%rsp), %r15
	movq	1056(%rsp), %rcx
	movq	432(%rsp), %rdx
	cmpq	%rcx, %rdx
	cmovbq	%rdx, %rcx
	movq	%rdx, %r12
	notq	%r12
	addq	%rcx, %r12
	addq	%rax, %r12
	shlq	$5, %rdx
	leaq	(%rdx,%rdx,2), %rax
	shlq	$5, %rcx
	leaq	(%rcx,%rcx,2), %rcx
	subq	%rcx, %rax
	leaq	(%rax,%r14), %r13
	addq	$112, %r13
.LBB37d7e3d0_755:
	movzbl	-8(%r13), %eax
	movups	64(%r13), %xmm0
	movups	%xmm0, 64(%r15)
	movdqu	(%r13), %xmm0
	movdqu	16(%r13), %xmm1
	movdqu	32(%r13), %xmm2
	movdqu	48(%r13), %xmm3
	movdqu	%xmm3, 48(%r15)
	movdqu	%xmm2, 32(%r15)
	movdqu	%xmm1, 16(%r15)
	movdqu	%xmm0, (%r15)
	movq	%rax, 64(%rsp)
	leaq	64(%rsp), %rdi
	callq	hll_sketch.mode.Mode.drop.309f015d8caa795c
	addq	$96, %r13
	decq	%r12
	jne	.LBB37d7e3d0_755
	movq	176(%rsp), %rax
	movq	%r14, (%rax)
	movq	%rbp, 8(%rax)
	movq	%rbx, 16(%rax)
	jmp	.LBB37d7e3d0_757
.LBB37d7e3d0_758:
	movq	%rbx, %rdi
	movq	%r14, %rsi
	movq	%r15, %rdx
	callq	memmove@PLT
	jmp	.LBB37d7e3d0_796
.LBB37d7e3d0_759:
	movq	%r14, %rdi
	movq	%r15, %rsi
	movq	%rbx, %rdx
	callq	memmove@PLT
	jmp	.LBB37d7e3d0_810
.LBB37d7e3d0_764:
	movb	$2, %al
	jmp	.LBB37d7e3d0_767
.LBB37d7e3d0_765:
	xorl	%eax, %eax
	jmp	.LBB37d7e3d0_767
.LBB37d7e3d0_766:
	movb	$1, %al
.LBB37d7e3d0_767:
	movzbl	%al, %edx
	leaq	64(%rsp), %rdi
	callq	hll_sketch.mode.array_into_mode.8a2f8b2564a2651f
	movzbl	64(%rsp), %ecx
	movzbl	65(%rsp), %eax
	movzbl	72(%rsp), %edx
	movl	%edx, 16(%rsp)
	jmp	.LBB37d7e3d0_837
.LBB37d7e3d0_768:
	cmpl	%r9d, %r8d
	jne	.LBB37d7e3d0_576
	jmp	.LBB37d7e3d0_668
.LBB37d7e3d0_769:
	xorl	%r14d, %r14d
.LBB37d7e3d0_770:
	movq	336(%rsp), %rax
	movb	$0, (%rax,%r14)
	leaq	1(%r14), %r8
	movq	%r8, %rax
	shrq	$2, %rax
	leaq	(%rax,%rax,2), %rcx
	movq	%r8, 368(%rsp)
	shrq	$6, %r8
	movq	%r8, %rax
	shlq	$4, %rax
	leaq	(%rax,%rax,2), %rdx
	movq	%rdx, 480(%rsp)
	subq	%rdx, %rcx
	movabsq	$-6148914691236517205, %rdx
	movq	%rcx, %rax
	mulq	%rdx
	cmpq	$63, %r14
	jb	.LBB37d7e3d0_773
	leaq	32(%rbx), %rax
	movq	336(%rsp), %r9
.LBB37d7e3d0_772:
	movdqa	.LCPI37d7e3d0_17(%rip), %xmm0
	movdqu	-32(%rax), %xmm1
	movdqu	-20(%rax), %xmm2
	movdqu	-8(%rax), %xmm4
	movdqu	(%rax), %xmm5
	pshufb	%xmm0, %xmm1
	pshufb	%xmm0, %xmm2
	pshufb	%xmm0, %xmm4
	pshufb	.LCPI37d7e3d0_18(%rip), %xmm5
	movdqa	%xmm2, %xmm0
	psllw	$4, %xmm0
	pblendw	$170, %xmm2, %xmm0
	movdqa	%xmm1, %xmm3
	psllw	$4, %xmm3
	pblendw	$170, %xmm1, %xmm3
	movdqa	%xmm4, %xmm1
	psllw	$4, %xmm1
	pblendw	$170, %xmm4, %xmm1
	movdqa	%xmm5, %xmm2
	psllw	$4, %xmm2
	pblendw	$170, %xmm5, %xmm2
	movdqa	%xmm1, %xmm4
	psrlw	$4, %xmm4
	movdqa	%xmm3, %xmm6
	psrlw	$4, %xmm6
	movdqa	%xmm0, %xmm7
	psrlw	$4, %xmm7
	movdqa	%xmm2, %xmm5
	psrlw	$4, %xmm5
	movdqa	.LCPI37d7e3d0_19(%rip), %xmm8
	pand	%xmm8, %xmm7
	pand	%xmm8, %xmm6
	pand	%xmm8, %xmm4
	pand	%xmm8, %xmm5
	psrlw	$2, %xmm1
	psrlw	$2, %xmm3
	psrlw	$2, %xmm0
	psrlw	$2, %xmm2
	movdqa	.LCPI37d7e3d0_20(%rip), %xmm8
	pand	%xmm8, %xmm0
	por	%xmm7, %xmm0
	pand	%xmm8, %xmm3
	por	%xmm6, %xmm3
	pand	%xmm8, %xmm1
	por	%xmm4, %xmm1
	pand	%xmm8, %xmm2
	por	%xmm5, %xmm2
	movdqu	(%r9), %xmm4
	pmaxub	%xmm3, %xmm4
	movdqu	16(%r9), %xmm3
	pmaxub	%xmm0, %xmm3
	movdqu	32(%r9), %xmm0
	pmaxub	%xmm1, %xmm0
	movdqu	48(%r9), %xmm1
	pmaxub	%xmm2, %xmm1
	movdqu	%xmm0, 32(%r9)
	movdqu	%xmm1, 48(%r9)
	movdqu	%xmm4, (%r9)
	movdqu	%xmm3, 16(%r9)
	addq	$48, %rax
	addq	$64, %r9
	decq	%r8
	jne	.LBB37d7e3d0_772
.LBB37d7e3d0_773:
	cmpq	$3, %rcx
	jb	.LBB37d7e3d0_870
	movq	368(%rsp), %rsi
	andq	$-64, %rsi
	movq	336(%rsp), %rax
	addq	%rsi, %rax
	shrq	%rdx
	cmpq	$24, %rcx
	jb	.LBB37d7e3d0_775
	movq	336(%rsp), %rdi
	addq	%rsi, %rdi
	addq	$3, %rdi
	leaq	(%rax,%rdx,4), %r9
	decq	%r9
	xorl	%r8d, %r8d
	cmpq	%rdi, %r9
	jb	.LBB37d7e3d0_868
	movq	336(%rsp), %rdi
	addq	%rsi, %rdi
	addq	$2, %rdi
	leaq	(%rax,%rdx,4), %r9
	addq	$-2, %r9
	cmpq	%rdi, %r9
	jb	.LBB37d7e3d0_868
	leaq	(%rax,%rdx,4), %rdi
	addq	$-4, %rdi
	cmpq	%rax, %rdi
	jb	.LBB37d7e3d0_868
	movq	336(%rsp), %rdi
	addq	%rdi, %rsi
	incq	%rsi
	leaq	(%rax,%rdx,4), %rdi
	addq	$-3, %rdi
	cmpq	%rsi, %rdi
	jb	.LBB37d7e3d0_868
	leaq	-1(%rdx), %rsi
	movabsq	$4611686018427387903, %rdi
	cmpq	%rdi, %rsi
	ja	.LBB37d7e3d0_868
	movq	480(%rsp), %rsi
	addq	%rbx, %rsi
	leaq	(%rax,%rdx,4), %rdi
	cmpq	%rdi, %rsi
	jae	.LBB37d7e3d0_859
	leaq	(%rdx,%rdx,2), %rdi
	addq	%rdi, %rsi
	cmpq	%rsi, %rax
	jae	.LBB37d7e3d0_859
.LBB37d7e3d0_775:
	xorl	%r8d, %r8d
.LBB37d7e3d0_868:
	leaq	(%r8,%r8,2), %rcx
	movq	480(%rsp), %rsi
	addq	%rcx, %rsi
	leaq	(%rbx,%rsi), %rcx
	addq	$2, %rcx
.LBB37d7e3d0_869:
	movzbl	-2(%rcx), %esi
	movzbl	-1(%rcx), %edi
	movzbl	(%rcx), %r9d
	shll	$8, %edi
	movl	%r9d, %r10d
	shll	$16, %r10d
	orl	%edi, %r10d
	orl	%esi, %edi
	shrl	$6, %edi
	shrl	$12, %r10d
	shrb	$2, %r9b
	andb	$63, %r10b
	movd	%esi, %xmm0
	pinsrb	$1, %edi, %xmm0
	pand	.LCPI37d7e3d0_25(%rip), %xmm0
	movd	(%rax,%r8,4), %xmm1
	movzbl	%r10b, %esi
	pinsrb	$2, %esi, %xmm0
	movzbl	%r9b, %esi
	pinsrb	$3, %esi, %xmm0
	pmaxub	%xmm1, %xmm0
	movd	%xmm0, (%rax,%r8,4)
	incq	%r8
	addq	$3, %rcx
	cmpq	%r8, %rdx
	jne	.LBB37d7e3d0_869
.LBB37d7e3d0_870:
	movq	$0, 680(%rsp)
	movq	$0, 673(%rsp)
	movq	416(%rsp), %rax
	movq	%rax, 712(%rsp)
	movl	424(%rsp), %eax
	movl	%eax, 720(%rsp)
	movl	40(%rsp), %eax
	movl	%eax, 724(%rsp)
	movzbl	8(%rsp), %eax
	movb	%al, 728(%rsp)
	movq	576(%rsp), %rax
	movq	583(%rsp), %rcx
	movq	%rax, 729(%rsp)
	movq	%rcx, 736(%rsp)
	movq	48(%rsp), %rax
	movb	%al, 672(%rsp)
	movq	336(%rsp), %rax
	movq	%rax, 688(%rsp)
	movq	368(%rsp), %rax
	movq	%rax, 696(%rsp)
	movq	352(%rsp), %rax
	movq	%rax, 704(%rsp)
	movzbl	384(%rsp), %edx
	leaq	64(%rsp), %rdi
	leaq	672(%rsp), %rsi
	callq	hll_sketch.mode.array_into_mode.8a2f8b2564a2651f
	movzbl	64(%rsp), %eax
	movq	%rax, 384(%rsp)
	movzbl	65(%rsp), %r15d
	movzbl	72(%rsp), %ebp
	movaps	80(%rsp), %xmm0
	movaps	%xmm0, 224(%rsp)
	movaps	96(%rsp), %xmm0
	movaps	%xmm0, 240(%rsp)
	movaps	112(%rsp), %xmm0
	movaps	%xmm0, 256(%rsp)
	movaps	128(%rsp), %xmm0
	movaps	%xmm0, 272(%rsp)
	movdqa	144(%rsp), %xmm0
	movdqa	%xmm0, 288(%rsp)
.LBB37d7e3d0_871:
	cmpq	$0, 16(%rsp)
	je	.LBB37d7e3d0_874
	movq	%rbx, %rdi
.LBB37d7e3d0_873:
	callq	rattle_dealloc@PLT
.LBB37d7e3d0_874:
	movq	224(%rsp), %rax
	movq	%rax, 48(%rsp)
	movq	232(%rsp), %r13
	movq	240(%rsp), %rbx
	movq	248(%rsp), %r14
	movq	256(%rsp), %rax
	movq	%rax, 16(%rsp)
	movq	264(%rsp), %rax
	movq	%rax, 1064(%rsp)
	movl	272(%rsp), %eax
	movl	%eax, 1072(%rsp)
	movl	276(%rsp), %eax
	movl	%eax, 40(%rsp)
	movzbl	280(%rsp), %eax
	movb	%al, 8(%rsp)
	movdqu	281(%rsp), %xmm0
	movdqa	%xmm0, 768(%rsp)
	movq	296(%rsp), %rax
	movq	%rax, 783(%rsp)
	cmpb	$0, 384(%rsp)
	je	.LBB37d7e3d0_876
	xorl	%eax, %eax
	cmpb	$12, %r15b
	movzbl	%r15b, %r15d
	cmovel	%eax, %r15d
	sete	%bl
	addb	%bl, %bl
	addb	$3, %bl
	movb	$1, %bpl
	movq	32(%rsp), %rdi
	jmp	.LBB37d7e3d0_4
.LBB37d7e3d0_876:
	movl	1072(%rsp), %eax
	movl	%eax, 872(%rsp)
	movq	1064(%rsp), %rax
	movq	%rax, 864(%rsp)
	movaps	768(%rsp), %xmm0
	movaps	%xmm0, 304(%rsp)
	movq	783(%rsp), %rax
.LBB37d7e3d0_877:
	movq	%rax, 319(%rsp)
	movq	864(%rsp), %rax
	movq	%rax, 656(%rsp)
	movl	872(%rsp), %eax
	movl	%eax, 664(%rsp)
	movaps	304(%rsp), %xmm0
	movaps	%xmm0, 624(%rsp)
	movq	319(%rsp), %rax
	movq	%rax, 639(%rsp)
	movzbl	%bpl, %ebp
	movq	176(%rsp), %rdi
	movq	8(%rdi), %r15
	movq	%r15, %rax
	cmpq	%r15, 16(%rdi)
	je	.LBB37d7e3d0_885
.LBB37d7e3d0_878:
	movq	(%rdi), %rcx
	leaq	(%rax,%rax,2), %rdx
	shlq	$5, %rdx
	movb	%r12b, (%rcx,%rdx)
	movq	%rbp, 8(%rcx,%rdx)
	movq	48(%rsp), %rsi
	movq	%rsi, 16(%rcx,%rdx)
	movq	%r13, 24(%rcx,%rdx)
	movq	%rbx, 32(%rcx,%rdx)
	movq	%r14, 40(%rcx,%rdx)
	movq	16(%rsp), %rsi
	movq	%rsi, 48(%rcx,%rdx)
	movq	656(%rsp), %rsi
	movq	%rsi, 56(%rcx,%rdx)
	movl	664(%rsp), %esi
	movl	%esi, 64(%rcx,%rdx)
	movl	40(%rsp), %esi
	movl	%esi, 68(%rcx,%rdx)
	movzbl	8(%rsp), %esi
	movb	%sil, 72(%rcx,%rdx)
	movdqa	624(%rsp), %xmm0
	movdqu	%xmm0, 73(%rcx,%rdx)
	movq	639(%rsp), %rsi
	movq	%rsi, 88(%rcx,%rdx)
	incq	%rax
	movq	%rax, 8(%rdi)
	cmpq	%r15, 408(%rsp)
	je	.LBB37d7e3d0_880
	movq	(%rdi), %rax
	leaq	(%r15,%r15,2), %rcx
	shlq	$5, %rcx
	movq	376(%rsp), %r10
	movzbl	(%rax,%r10), %edx
	movzbl	8(%rax,%r10), %esi
	movups	80(%rax,%r10), %xmm0
	movaps	%xmm0, 128(%rsp)
	movups	64(%rax,%r10), %xmm0
	movaps	%xmm0, 112(%rsp)
	movups	48(%rax,%r10), %xmm0
	movaps	%xmm0, 96(%rsp)
	movups	32(%rax,%r10), %xmm0
	movaps	%xmm0, 80(%rsp)
	movups	16(%rax,%r10), %xmm0
	movaps	%xmm0, 64(%rsp)
	movzbl	(%rax,%rcx), %r8d
	movzbl	8(%rax,%rcx), %r9d
	movups	80(%rax,%rcx), %xmm0
	movaps	%xmm0, 272(%rsp)
	movups	64(%rax,%rcx), %xmm0
	movaps	%xmm0, 256(%rsp)
	movups	48(%rax,%rcx), %xmm0
	movaps	%xmm0, 240(%rsp)
	movups	32(%rax,%rcx), %xmm0
	movaps	%xmm0, 224(%rsp)
	movups	16(%rax,%rcx), %xmm0
	movaps	%xmm0, 208(%rsp)
	movb	%r8b, (%rax,%r10)
	movq	%r9, 8(%rax,%r10)
	movaps	208(%rsp), %xmm0
	movaps	224(%rsp), %xmm1
	movaps	240(%rsp), %xmm2
	movaps	256(%rsp), %xmm3
	movups	%xmm0, 16(%rax,%r10)
	movups	%xmm1, 32(%rax,%r10)
	movups	%xmm2, 48(%rax,%r10)
	movups	%xmm3, 64(%rax,%r10)
	movaps	272(%rsp), %xmm0
	movups	%xmm0, 80(%rax,%r10)
	movb	%dl, (%rax,%rcx)
	movq	%rsi, 8(%rax,%rcx)
	movaps	128(%rsp), %xmm0
	movups	%xmm0, 80(%rax,%rcx)
	movdqa	64(%rsp), %xmm0
	movdqa	80(%rsp), %xmm1
	movdqa	96(%rsp), %xmm2
	movdqa	112(%rsp), %xmm3
	movdqu	%xmm3, 64(%rax,%rcx)
	movdqu	%xmm2, 48(%rax,%rcx)
	movdqu	%xmm1, 32(%rax,%rcx)
	movdqu	%xmm0, 16(%rax,%rcx)
	movq	8(%rdi), %rax
.LBB37d7e3d0_880:
	movq	408(%rsp), %rcx
	incq	%rcx
	cmpq	%rcx, %rax
	jbe	.LBB37d7e3d0_757
	movq	%rcx, %rbp
	movq	(%rdi), %r14
	movq	%rdi, %r15
	movq	16(%rdi), %rcx
	movq	%rcx, 16(%rsp)
	pxor	%xmm0, %xmm0
	movq	848(%rsp), %rcx
	movdqu	%xmm0, (%rcx)
	movq	1056(%rsp), %rcx
	movq	432(%rsp), %rdx
	cmpq	%rcx, %rdx
	cmovbq	%rdx, %rcx
	movq	%rdx, %r12
	notq	%r12
	addq	%rcx, %r12
	addq	%rax, %r12
	shlq	$5, %rdx
	leaq	(%rdx,%rdx,2), %rax
	shlq	$5, %rcx
	leaq	(%rcx,%rcx,2), %rcx
	subq	%rcx, %rax
	leaq	(%rax,%r14), %r13
	addq	$112, %r13
	leaq	72(%rsp), %rbx
.LBB37d7e3d0_882:
	movzbl	-8(%r13), %eax
	movups	64(%r13), %xmm0
	movups	%xmm0, 64(%rbx)
	movdqu	(%r13), %xmm0
	movdqu	16(%r13), %xmm1
	movdqu	32(%r13), %xmm2
	movdqu	48(%r13), %xmm3
	movdqu	%xmm3, 48(%rbx)
	movdqu	%xmm2, 32(%rbx)
	movdqu	%xmm1, 16(%rbx)
	movdqu	%xmm0, (%rbx)
	movq	%rax, 64(%rsp)
	leaq	64(%rsp), %rdi
	callq	hll_sketch.mode.Mode.drop.309f015d8caa795c
	addq	$96, %r13
	decq	%r12
	jne	.LBB37d7e3d0_882
	movq	%r14, (%r15)
	movq	%rbp, 8(%r15)
	movq	16(%rsp), %rax
	movq	%rax, 16(%r15)
.LBB37d7e3d0_757:
	xorl	%ebp, %ebp
	xorl	%ebx, %ebx
	xorl	%r15d, %r15d
	movq	32(%rsp), %rdi
	jmp	.LBB37d7e3d0_4
.LBB37d7e3d0_885:
	callq	std_alloc.vec.Vec.grow_amortized.f10ba080d3fae16a
	testb	%al, %al
	je	.LBB37d7e3d0_887
	movq	848(%rsp), %rax
	movq	(%rax), %rax
	movq	176(%rsp), %rdi
	jmp	.LBB37d7e3d0_878
.LBB37d7e3d0_887:
	movl	664(%rsp), %eax
	movl	%eax, 120(%rsp)
	movq	656(%rsp), %rax
	movq	%rax, 112(%rsp)
	movdqa	624(%rsp), %xmm0
	movdqu	%xmm0, 129(%rsp)
	movq	639(%rsp), %rax
	movq	%rax, 144(%rsp)
	movq	48(%rsp), %rax
	movq	%rax, 72(%rsp)
	movq	%r13, 80(%rsp)
	movq	%rbx, 88(%rsp)
	movq	%r14, 96(%rsp)
	movq	16(%rsp), %rax
	movq	%rax, 104(%rsp)
	movl	40(%rsp), %eax
	movl	%eax, 124(%rsp)
	movzbl	8(%rsp), %eax
	movb	%al, 128(%rsp)
	movq	%rbp, 64(%rsp)
	leaq	64(%rsp), %rdi
	callq	hll_sketch.mode.Mode.drop.309f015d8caa795c
	movb	$5, %bl
	movb	$1, %bpl
	xorl	%r15d, %r15d
	movq	32(%rsp), %rdi
	jmp	.LBB37d7e3d0_4
.LBB37d7e3d0_784:
	movq	%r15, %rax
	andq	$-32, %rax
	xorl	%ecx, %ecx
.LBB37d7e3d0_785:
	movdqu	(%r14,%rcx), %xmm0
	movdqu	16(%r14,%rcx), %xmm1
	movdqu	%xmm0, (%rbx,%rcx)
	movdqu	%xmm1, 16(%rbx,%rcx)
	addq	$32, %rcx
	cmpq	%rcx, %rax
	jne	.LBB37d7e3d0_785
	cmpq	%rax, %r15
	je	.LBB37d7e3d0_796
	testb	$28, %r15b
	je	.LBB37d7e3d0_791
.LBB37d7e3d0_788:
	movq	%rax, %rcx
	movq	%r15, %rax
	andq	$-4, %rax
.LBB37d7e3d0_789:
	movl	(%r14,%rcx), %edx
	movl	%edx, (%rbx,%rcx)
	addq	$4, %rcx
	cmpq	%rcx, %rax
	jne	.LBB37d7e3d0_789
	cmpq	%rax, %r15
	je	.LBB37d7e3d0_796
.LBB37d7e3d0_791:
	movq	%r15, %rdx
	movq	%rax, %rcx
	andq	$3, %rdx
	je	.LBB37d7e3d0_794
	movq	%rax, %rcx
.LBB37d7e3d0_793:
	movzbl	(%r14,%rcx), %esi
	movb	%sil, (%rbx,%rcx)
	incq	%rcx
	decq	%rdx
	jne	.LBB37d7e3d0_793
.LBB37d7e3d0_794:
	subq	%r15, %rax
	cmpq	$-4, %rax
	ja	.LBB37d7e3d0_796
.LBB37d7e3d0_795:
	movzbl	(%r14,%rcx), %eax
	movb	%al, (%rbx,%rcx)
	movzbl	1(%r14,%rcx), %eax
	movb	%al, 1(%rbx,%rcx)
	movzbl	2(%r14,%rcx), %eax
	movb	%al, 2(%rbx,%rcx)
	movzbl	3(%r14,%rcx), %eax
	movb	%al, 3(%rbx,%rcx)
	addq	$4, %rcx
	cmpq	%rcx, %r15
	jne	.LBB37d7e3d0_795
.LBB37d7e3d0_796:
	movzbl	-76(%r12), %esi
	movl	-72(%r12), %r14d
	movq	-40(%r12), %rdx
	movsd	-32(%r12), %xmm0
	movzbl	-24(%r12), %eax
	shlq	$32, %rsi
	addq	176(%rsp), %rsi
	movq	-16(%r12), %rcx
	movq	%rcx, 631(%rsp)
	movq	-23(%r12), %rcx
	movq	%rcx, 624(%rsp)
	movq	639(%rsp), %rcx
	movq	%rcx, 319(%rsp)
	movq	624(%rsp), %rcx
	movq	%rcx, 304(%rsp)
	movl	632(%rsp), %ecx
	movl	%ecx, 312(%rsp)
	movzwl	636(%rsp), %ecx
	movw	%cx, 316(%rsp)
	movzbl	638(%rsp), %ecx
	movb	%cl, 318(%rsp)
	movzbl	639(%rsp), %ecx
.LBB37d7e3d0_797:
	movb	%cl, 319(%rsp)
	movq	%r15, 176(%rsp)
	jmp	.LBB37d7e3d0_830
.LBB37d7e3d0_798:
	movq	%rbx, %rax
	andq	$-32, %rax
	xorl	%ecx, %ecx
.LBB37d7e3d0_799:
	movdqu	(%r15,%rcx), %xmm0
	movdqu	16(%r15,%rcx), %xmm1
	movdqu	%xmm0, (%r14,%rcx)
	movdqu	%xmm1, 16(%r14,%rcx)
	addq	$32, %rcx
	cmpq	%rcx, %rax
	jne	.LBB37d7e3d0_799
	cmpq	%rax, %rbx
	je	.LBB37d7e3d0_810
	testb	$28, %bl
	je	.LBB37d7e3d0_805
.LBB37d7e3d0_802:
	movq	%rax, %rcx
	movq	%rbx, %rax
	andq	$-4, %rax
.LBB37d7e3d0_803:
	movl	(%r15,%rcx), %edx
	movl	%edx, (%r14,%rcx)
	addq	$4, %rcx
	cmpq	%rcx, %rax
	jne	.LBB37d7e3d0_803
	cmpq	%rax, %rbx
	je	.LBB37d7e3d0_810
.LBB37d7e3d0_805:
	movq	%rbx, %rdx
	movq	%rax, %rcx
	andq	$3, %rdx
	je	.LBB37d7e3d0_808
	movq	%rax, %rcx
.LBB37d7e3d0_807:
	movzbl	(%r15,%rcx), %esi
	movb	%sil, (%r14,%rcx)
	incq	%rcx
	decq	%rdx
	jne	.LBB37d7e3d0_807
.LBB37d7e3d0_808:
	subq	%rbx, %rax
	cmpq	$-4, %rax
	ja	.LBB37d7e3d0_810
.LBB37d7e3d0_809:
	movzbl	(%r15,%rcx), %eax
	movb	%al, (%r14,%rcx)
	movzbl	1(%r15,%rcx), %eax
	movb	%al, 1(%r14,%rcx)
	movzbl	2(%r15,%rcx), %eax
	movb	%al, 2(%r14,%rcx)
	movzbl	3(%r15,%rcx), %eax
	movb	%al, 3(%r14,%rcx)
	addq	$4, %rcx
	cmpq	%rcx, %rbx
	jne	.LBB37d7e3d0_809
.LBB37d7e3d0_810:
	movzbl	-48(%r12), %eax
	movq	%rax, 176(%rsp)
	cmpq	$1, %rax
	jne	.LBB37d7e3d0_822
	movq	-40(%r12), %rax
	movzbl	(%rax), %ecx
	movq	%rcx, 376(%rsp)
	movzbl	24(%rax), %ecx
	movdqu	8(%rax), %xmm0
	movdqa	%xmm0, 352(%rsp)
	movl	%ecx, 40(%rsp)
	testl	%ecx, %ecx
	je	.LBB37d7e3d0_823
	movq	32(%rax), %r15
	movq	40(%rax), %rcx
	movq	$0, 408(%rsp)
	movq	%rcx, 8(%rsp)
	testq	%rcx, %rcx
	je	.LBB37d7e3d0_824
	movabsq	$2305843009213693944, %rax
	addq	$8, %rax
	cmpq	%rax, 8(%rsp)
	jae	.LBB37d7e3d0_834
	movq	8(%rsp), %rax
	leaq	(,%rax,4), %rdi
	movl	$4, %esi
	movq	%rdi, 336(%rsp)
	callq	rattle_alloc@PLT
	movq	%rdx, 432(%rsp)
	testb	$1, %al
	je	.LBB37d7e3d0_834
	movq	432(%rsp), %rax
	subq	%r15, %rax
	cmpq	336(%rsp), %rax
	jae	.LBB37d7e3d0_825
	xorl	%eax, %eax
	cmpq	$8, 8(%rsp)
	jb	.LBB37d7e3d0_888
	movq	432(%rsp), %rcx
	subq	%r15, %rcx
	cmpq	$32, %rcx
	jb	.LBB37d7e3d0_888
	movabsq	$2305843009213693944, %rax
	movq	8(%rsp), %rcx
	andq	%rcx, %rax
	leaq	(,%rcx,4), %rdx
	movabsq	$9223372036854775776, %rcx
	andq	%rdx, %rcx
	xorl	%edx, %edx
.LBB37d7e3d0_819:
	movdqu	(%r15,%rdx), %xmm0
	movdqu	16(%r15,%rdx), %xmm1
	movq	432(%rsp), %rsi
	movdqu	%xmm0, (%rsi,%rdx)
	movdqu	%xmm1, 16(%rsi,%rdx)
	addq	$32, %rdx
	cmpq	%rdx, %rcx
	jne	.LBB37d7e3d0_819
	cmpq	%rax, 8(%rsp)
	jne	.LBB37d7e3d0_888
	movq	$0, 408(%rsp)
	jmp	.LBB37d7e3d0_826
.LBB37d7e3d0_822:
	xorl	%edx, %edx
	jmp	.LBB37d7e3d0_829
.LBB37d7e3d0_823:
	movl	28(%rax), %ecx
	movq	%rcx, 408(%rsp)
	movq	32(%rax), %rcx
	movq	%rcx, 432(%rsp)
	movq	40(%rax), %rcx
	movq	%rcx, 8(%rsp)
	movq	48(%rax), %r15
	movl	56(%rax), %eax
	movl	%eax, 336(%rsp)
	jmp	.LBB37d7e3d0_827
.LBB37d7e3d0_824:
	leaq	4(%rsp), %rax
	movq	%rax, 432(%rsp)
	movq	$0, 336(%rsp)
.LBB37d7e3d0_825:
	movq	432(%rsp), %rdi
	movq	%r15, %rsi
	movq	336(%rsp), %rdx
	callq	memmove@PLT
.LBB37d7e3d0_826:
	movq	8(%rsp), %r15
	movl	$0, 336(%rsp)
.LBB37d7e3d0_827:
	movl	$64, %edi
	movl	$8, %esi
	callq	rattle_alloc@PLT
	testb	$1, %al
	je	.LBB37d7e3d0_831
	movq	376(%rsp), %rax
	movq	%rax, (%rdx)
	movdqa	352(%rsp), %xmm0
	movdqu	%xmm0, 8(%rdx)
	movl	40(%rsp), %eax
	movl	%eax, 24(%rdx)
	movq	408(%rsp), %rax
	movl	%eax, 28(%rdx)
	movq	432(%rsp), %rax
	movq	%rax, 32(%rdx)
	movq	8(%rsp), %rax
	movq	%rax, 40(%rdx)
	movq	%r15, 48(%rdx)
	movl	336(%rsp), %eax
	movl	%eax, 56(%rdx)
	movl	$0, 60(%rdx)
.LBB37d7e3d0_829:
	movsd	-32(%r12), %xmm0
	movzbl	-24(%r12), %eax
	movq	48(%rsp), %rsi
	shlq	$32, %rsi
	addq	384(%rsp), %rsi
	movq	-8(%r12), %rcx
	movq	%rcx, 319(%rsp)
	movdqu	-23(%r12), %xmm1
	movdqa	%xmm1, 304(%rsp)
	movq	%rbx, %r15
.LBB37d7e3d0_830:
	movq	%rsi, 80(%rsp)
	movq	%r14, 88(%rsp)
	movq	%rbx, 96(%rsp)
	movq	%r15, 104(%rsp)
	movq	176(%rsp), %rcx
	movq	%rcx, 112(%rsp)
	movq	%rdx, 120(%rsp)
	movlps	%xmm0, 128(%rsp)
	movb	%al, 136(%rsp)
	movdqa	304(%rsp), %xmm0
	movdqu	%xmm0, 137(%rsp)
	movq	319(%rsp), %rax
	movq	%rax, 152(%rsp)
	xorl	%eax, %eax
	xorl	%ecx, %ecx
	jmp	.LBB37d7e3d0_837
.LBB37d7e3d0_831:
	cmpl	$0, 40(%rsp)
	je	.LBB37d7e3d0_834
	testq	%r15, %r15
	je	.LBB37d7e3d0_834
	movq	432(%rsp), %rdi
	callq	rattle_dealloc@PLT
.LBB37d7e3d0_834:
	testq	%rbx, %rbx
	je	.LBB37d7e3d0_836
	movq	%r14, %rdi
	callq	rattle_dealloc@PLT
.LBB37d7e3d0_836:
	pxor	%xmm0, %xmm0
	movdqu	%xmm0, 136(%rsp)
	movdqu	%xmm0, 120(%rsp)
	movdqu	%xmm0, 104(%rsp)
	movdqu	%xmm0, 88(%rsp)
	movdqu	%xmm0, 72(%rsp)
	movq	$0, 152(%rsp)
	movb	$1, %cl
	movb	$12, %al
	movl	$0, 16(%rsp)
.LBB37d7e3d0_837:
	movzbl	16(%rsp), %edx
	movb	%cl, 208(%rsp)
	movb	%al, 209(%rsp)
	movq	%rdx, 216(%rsp)
	movaps	80(%rsp), %xmm0
	movdqa	96(%rsp), %xmm1
	movdqa	112(%rsp), %xmm2
	movdqa	128(%rsp), %xmm3
	movaps	%xmm0, 224(%rsp)
	movdqa	%xmm1, 240(%rsp)
	movdqa	%xmm2, 256(%rsp)
	movdqa	%xmm3, 272(%rsp)
	movdqa	144(%rsp), %xmm0
	movdqa	%xmm0, 288(%rsp)
.LBB37d7e3d0_838:
	movzbl	209(%rsp), %ecx
	movzbl	216(%rsp), %eax
	movaps	224(%rsp), %xmm0
	movaps	%xmm0, 496(%rsp)
	movaps	240(%rsp), %xmm0
	movaps	%xmm0, 512(%rsp)
	movaps	256(%rsp), %xmm0
	movaps	%xmm0, 528(%rsp)
	movdqa	272(%rsp), %xmm0
	movdqa	%xmm0, 544(%rsp)
	movq	288(%rsp), %rdx
	movq	%rdx, 560(%rsp)
	movq	296(%rsp), %rdx
	movq	%rdx, 568(%rsp)
	cmpb	$0, 208(%rsp)
	movq	32(%rsp), %rdi
	je	.LBB37d7e3d0_841
.LBB37d7e3d0_839:
	xorl	%eax, %eax
	cmpb	$12, %cl
	sete	%bl
	movzbl	%cl, %r15d
.LBB37d7e3d0_840:
	cmovel	%eax, %r15d
	addb	%bl, %bl
	addb	$3, %bl
	jmp	.LBB37d7e3d0_4
.LBB37d7e3d0_841:
	movq	560(%rsp), %rcx
	movq	%rcx, 944(%rsp)
	movq	568(%rsp), %rcx
	movq	%rcx, 952(%rsp)
	movaps	496(%rsp), %xmm0
	movaps	512(%rsp), %xmm1
	movaps	528(%rsp), %xmm2
	movaps	544(%rsp), %xmm3
	movaps	%xmm3, 928(%rsp)
	movaps	%xmm2, 912(%rsp)
	movaps	%xmm1, 896(%rsp)
	movaps	%xmm0, 880(%rsp)
	movzbl	-88(%r12), %ecx
	movups	-16(%r12), %xmm0
	movaps	%xmm0, 832(%rsp)
	movups	-80(%r12), %xmm0
	movups	-64(%r12), %xmm1
	movups	-48(%r12), %xmm2
	movups	-32(%r12), %xmm3
	movaps	%xmm3, 816(%rsp)
	movaps	%xmm2, 800(%rsp)
	movaps	%xmm1, 784(%rsp)
	movaps	%xmm0, 768(%rsp)
	movb	%r13b, -96(%r12)
	movq	%rax, -88(%r12)
	movaps	880(%rsp), %xmm0
	movaps	896(%rsp), %xmm1
	movaps	912(%rsp), %xmm2
	movaps	928(%rsp), %xmm3
	movups	%xmm0, -80(%r12)
	movups	%xmm1, -64(%r12)
	movups	%xmm2, -48(%r12)
	movups	%xmm3, -32(%r12)
	movaps	944(%rsp), %xmm0
	movups	%xmm0, -16(%r12)
	movq	%rcx, 672(%rsp)
	movaps	768(%rsp), %xmm0
	movdqa	784(%rsp), %xmm1
	movdqa	800(%rsp), %xmm2
	movdqa	816(%rsp), %xmm3
	movups	%xmm0, 680(%rsp)
	movdqu	%xmm1, 696(%rsp)
	movdqu	%xmm2, 712(%rsp)
	movdqu	%xmm3, 728(%rsp)
	movdqa	832(%rsp), %xmm0
	movdqu	%xmm0, 744(%rsp)
	leaq	672(%rsp), %rdi
	callq	hll_sketch.mode.Mode.drop.309f015d8caa795c
	movq	32(%rsp), %rdi
	jmp	.LBB37d7e3d0_2
.LBB37d7e3d0_846:
	cmpq	$0, 784(%rsp)
	je	.LBB37d7e3d0_848
	movq	768(%rsp), %rdi
	callq	rattle_dealloc@PLT
.LBB37d7e3d0_848:
	movb	$12, %r14b
.LBB37d7e3d0_849:
	cmpq	$0, 320(%rsp)
	je	.LBB37d7e3d0_852
	movq	%r13, %rdi
.LBB37d7e3d0_851:
	callq	rattle_dealloc@PLT
.LBB37d7e3d0_852:
	movzbl	80(%rsp), %eax
	movq	%rax, 672(%rsp)
	leaq	80(%rsp), %rax
	movups	8(%rax), %xmm0
	movups	24(%rax), %xmm1
	movups	40(%rax), %xmm2
	movups	56(%rax), %xmm3
	movups	%xmm0, 680(%rsp)
	movups	%xmm1, 696(%rsp)
	movups	%xmm2, 712(%rsp)
	movups	%xmm3, 728(%rsp)
	movups	72(%rax), %xmm0
	movups	%xmm0, 744(%rsp)
	leaq	672(%rsp), %rdi
	callq	hll_sketch.mode.Mode.drop.309f015d8caa795c
	movq	32(%rsp), %rdi
.LBB37d7e3d0_853:
	xorl	%eax, %eax
	cmpb	$12, %r14b
	movzbl	%r14b, %r15d
	cmovel	%eax, %r15d
	sete	%bl
	addb	%bl, %bl
	addb	$3, %bl
	movb	$1, %bpl
	jmp	.LBB37d7e3d0_4
.LBB37d7e3d0_854:
	movabsq	$4611686018427387903, %rdx
	addq	$-7, %rdx
	andq	%r15, %rdx
	xorl	%ecx, %ecx
	xorl	%esi, %esi
.LBB37d7e3d0_855:
	movzwl	(%r14,%rsi), %edi
	movzbl	2(%r14,%rsi), %r8d
	movb	%r8b, 2(%rbx,%rsi)
	movw	%di, (%rbx,%rsi)
	movzwl	3(%r14,%rsi), %edi
	movzbl	5(%r14,%rsi), %r8d
	movb	%r8b, 5(%rbx,%rsi)
	movw	%di, 3(%rbx,%rsi)
	movzwl	6(%r14,%rsi), %edi
	movzbl	8(%r14,%rsi), %r8d
	movb	%r8b, 8(%rbx,%rsi)
	movw	%di, 6(%rbx,%rsi)
	movzwl	9(%r14,%rsi), %edi
	movzbl	11(%r14,%rsi), %r8d
	movb	%r8b, 11(%rbx,%rsi)
	movw	%di, 9(%rbx,%rsi)
	movzwl	12(%r14,%rsi), %edi
	movzbl	14(%r14,%rsi), %r8d
	movb	%r8b, 14(%rbx,%rsi)
	movw	%di, 12(%rbx,%rsi)
	movzwl	15(%r14,%rsi), %edi
	movzbl	17(%r14,%rsi), %r8d
	movb	%r8b, 17(%rbx,%rsi)
	movw	%di, 15(%rbx,%rsi)
	movzwl	18(%r14,%rsi), %edi
	movzbl	20(%r14,%rsi), %r8d
	movb	%r8b, 20(%rbx,%rsi)
	movw	%di, 18(%rbx,%rsi)
	movzwl	21(%r14,%rsi), %edi
	movzbl	23(%r14,%rsi), %r8d
	movb	%r8b, 23(%rbx,%rsi)
	movw	%di, 21(%rbx,%rsi)
	addq	$8, %rcx
	addq	$24, %rsi
	cmpq	%rcx, %rdx
	jne	.LBB37d7e3d0_855
	testq	%rax, %rax
	je	.LBB37d7e3d0_694
.LBB37d7e3d0_857:
	leaq	(%rcx,%rcx,2), %rcx
	addq	%rcx, %r14
	addq	%rbx, %rcx
	leaq	(%rax,%rax,2), %rax
	xorl	%edx, %edx
.LBB37d7e3d0_858:
	movzwl	(%r14,%rdx), %esi
	movzbl	2(%r14,%rdx), %edi
	movb	%dil, 2(%rcx,%rdx)
	movw	%si, (%rcx,%rdx)
	addq	$3, %rdx
	cmpq	%rdx, %rax
	jne	.LBB37d7e3d0_858
	jmp	.LBB37d7e3d0_694
.LBB37d7e3d0_859:
	movabsq	$9223372036854775792, %r13
	cmpq	$48, %rcx
	jae	.LBB37d7e3d0_861
	xorl	%r8d, %r8d
	jmp	.LBB37d7e3d0_865
.LBB37d7e3d0_861:
	movq	%rdx, %r8
	andq	%r13, %r8
	movq	480(%rsp), %rcx
	addq	%rbx, %rcx
	addq	$47, %rcx
	xorl	%r10d, %r10d
.LBB37d7e3d0_862:
	movzbl	-47(%rcx), %esi
	movd	%esi, %xmm3
	movzbl	-35(%rcx), %r14d
	movzbl	-32(%rcx), %r15d
	pinsrb	$1, -44(%rcx), %xmm3
	movzbl	-45(%rcx), %esi
	movd	%esi, %xmm2
	pinsrb	$2, -41(%rcx), %xmm3
	pinsrb	$1, -42(%rcx), %xmm2
	pinsrb	$3, -38(%rcx), %xmm3
	movzbl	-29(%rcx), %esi
	pinsrb	$2, -39(%rcx), %xmm2
	movdqa	%xmm3, %xmm0
	pinsrb	$3, -36(%rcx), %xmm2
	pinsrb	$4, %r14d, %xmm0
	movzbl	-33(%rcx), %r11d
	movdqa	%xmm2, %xmm1
	pinsrb	$4, %r11d, %xmm1
	movzbl	-26(%rcx), %edi
	movzbl	-30(%rcx), %ebp
	pinsrb	$5, %r15d, %xmm0
	movd	%r14d, %xmm4
	movzbl	-27(%rcx), %r14d
	pinsrb	$5, %ebp, %xmm1
	pinsrb	$4, %r15d, %xmm4
	pinsrb	$6, %esi, %xmm0
	pinsrb	$8, %esi, %xmm4
	pinsrb	$6, %r14d, %xmm1
	movzbl	-23(%rcx), %esi
	movzbl	-24(%rcx), %r15d
	pinsrb	$7, %edi, %xmm0
	pinsrb	$12, %edi, %xmm4
	pinsrb	$7, %r15d, %xmm1
	movzbl	-20(%rcx), %edi
	movd	%esi, %xmm10
	pinsrb	$8, %esi, %xmm0
	pinsrb	$4, %edi, %xmm10
	pinsrb	$9, %edi, %xmm0
	movzbl	-17(%rcx), %r9d
	movzbl	-21(%rcx), %esi
	pinsrb	$8, %esi, %xmm1
	movd	%esi, %xmm6
	movzbl	-18(%rcx), %esi
	pinsrb	$9, %esi, %xmm1
	pinsrb	$8, %r9d, %xmm10
	pinsrb	$10, %r9d, %xmm0
	movzbl	-14(%rcx), %edi
	pinsrb	$4, %esi, %xmm6
	movzbl	-10(%rcx), %esi
	movd	%esi, %xmm8
	movzbl	-15(%rcx), %esi
	pinsrb	$10, %esi, %xmm1
	pinsrb	$12, %edi, %xmm10
	pinsrb	$11, %edi, %xmm0
	movzbl	-11(%rcx), %edi
	movd	%edi, %xmm15
	pinsrb	$12, %edi, %xmm0
	movzbl	-34(%rcx), %edi
	pinsrb	$8, %esi, %xmm6
	movzbl	-22(%rcx), %esi
	movd	%esi, %xmm7
	movzbl	-12(%rcx), %esi
	pinsrb	$11, %esi, %xmm1
	movd	%edi, %xmm9
	movzbl	-9(%rcx), %edi
	pinsrb	$12, %edi, %xmm1
	movd	%edi, %xmm12
	pinsrb	$12, %esi, %xmm6
	movzbl	-8(%rcx), %esi
	pinsrb	$4, %esi, %xmm15
	pinsrb	$13, %esi, %xmm0
	movd	%r11d, %xmm11
	pinsrb	$4, %ebp, %xmm11
	movzbl	-6(%rcx), %esi
	pinsrb	$4, %esi, %xmm12
	pinsrb	$13, %esi, %xmm1
	movzbl	-5(%rcx), %esi
	pinsrb	$8, %r14d, %xmm11
	movzbl	-2(%rcx), %r11d
	pinsrb	$8, %esi, %xmm15
	pinsrb	$14, %esi, %xmm0
	movzbl	-46(%rcx), %esi
	pinsrb	$12, %r15d, %xmm11
	movzbl	-3(%rcx), %ebp
	movd	%esi, %xmm5
	movzbl	(%rax,%r10,4), %esi
	movd	%esi, %xmm13
	movzbl	1(%rax,%r10,4), %esi
	movd	%esi, %xmm14
	movzbl	(%rcx), %esi
	pinsrb	$4, -7(%rcx), %xmm8
	pinsrb	$8, -4(%rcx), %xmm8
	pinsrb	$12, -1(%rcx), %xmm8
	pinsrb	$8, %ebp, %xmm12
	pinsrb	$12, %r11d, %xmm15
	pinsrb	$12, %esi, %xmm12
	pslld	$16, %xmm12
	pslld	$8, %xmm8
	por	%xmm8, %xmm12
	por	%xmm15, %xmm8
	pinsrb	$14, %ebp, %xmm1
	movzbl	3(%rax,%r10,4), %edi
	movd	%edi, %xmm15
	pinsrb	$15, %r11d, %xmm0
	pinsrb	$4, -19(%rcx), %xmm7
	pinsrb	$8, -16(%rcx), %xmm7
	pinsrb	$12, -13(%rcx), %xmm7
	pslld	$16, %xmm6
	pslld	$8, %xmm7
	por	%xmm7, %xmm6
	por	%xmm10, %xmm7
	pinsrb	$15, %esi, %xmm1
	movzbl	2(%rax,%r10,4), %esi
	movd	%esi, %xmm10
	pinsrb	$4, -31(%rcx), %xmm9
	pinsrb	$4, -43(%rcx), %xmm5
	pinsrb	$8, -28(%rcx), %xmm9
	pinsrb	$8, -40(%rcx), %xmm5
	pinsrb	$12, -25(%rcx), %xmm9
	pinsrb	$1, 4(%rax,%r10,4), %xmm13
	pinsrb	$12, -37(%rcx), %xmm5
	pmovzxbd	%xmm3, %xmm3
	pinsrb	$2, 8(%rax,%r10,4), %xmm13
	pmovzxbd	%xmm2, %xmm2
	pslld	$16, %xmm11
	pinsrb	$3, 12(%rax,%r10,4), %xmm13
	pslld	$8, %xmm9
	por	%xmm9, %xmm11
	pinsrb	$4, 16(%rax,%r10,4), %xmm13
	por	%xmm4, %xmm9
	pslld	$8, %xmm5
	pinsrb	$5, 20(%rax,%r10,4), %xmm13
	pslld	$16, %xmm2
	por	%xmm5, %xmm2
	pinsrb	$6, 24(%rax,%r10,4), %xmm13
	por	%xmm3, %xmm5
	psrld	$6, %xmm9
	pinsrb	$7, 28(%rax,%r10,4), %xmm13
	psrld	$6, %xmm7
	psrld	$6, %xmm8
	pinsrb	$1, 5(%rax,%r10,4), %xmm14
	psrld	$6, %xmm5
	movdqa	.LCPI37d7e3d0_21(%rip), %xmm3
	pinsrb	$2, 9(%rax,%r10,4), %xmm14
	pand	%xmm3, %xmm8
	psrld	$12, %xmm11
	pinsrb	$3, 13(%rax,%r10,4), %xmm14
	pand	%xmm3, %xmm7
	psrld	$12, %xmm6
	pinsrb	$4, 17(%rax,%r10,4), %xmm14
	pand	%xmm3, %xmm9
	psrld	$12, %xmm12
	pinsrb	$5, 21(%rax,%r10,4), %xmm14
	psrld	$12, %xmm2
	pinsrb	$6, 25(%rax,%r10,4), %xmm14
	pinsrb	$8, 32(%rax,%r10,4), %xmm13
	pand	%xmm3, %xmm12
	pinsrb	$7, 29(%rax,%r10,4), %xmm14
	packusdw	%xmm8, %xmm7
	pand	%xmm3, %xmm6
	pinsrb	$8, 33(%rax,%r10,4), %xmm14
	pand	%xmm3, %xmm5
	pand	%xmm3, %xmm11
	pinsrb	$1, 7(%rax,%r10,4), %xmm15
	packusdw	%xmm12, %xmm6
	pand	%xmm3, %xmm2
	pinsrb	$2, 11(%rax,%r10,4), %xmm15
	packusdw	%xmm9, %xmm5
	pinsrb	$3, 15(%rax,%r10,4), %xmm15
	pinsrb	$9, 36(%rax,%r10,4), %xmm13
	pinsrb	$4, 19(%rax,%r10,4), %xmm15
	pinsrb	$9, 37(%rax,%r10,4), %xmm14
	packusdw	%xmm11, %xmm2
	pinsrb	$5, 23(%rax,%r10,4), %xmm15
	packuswb	%xmm7, %xmm5
	movdqa	.LCPI37d7e3d0_22(%rip), %xmm3
	pinsrb	$6, 27(%rax,%r10,4), %xmm15
	packuswb	%xmm6, %xmm2
	pinsrb	$7, 31(%rax,%r10,4), %xmm15
	pinsrb	$10, 40(%rax,%r10,4), %xmm13
	pinsrb	$8, 35(%rax,%r10,4), %xmm15
	pinsrb	$10, 41(%rax,%r10,4), %xmm14
	pinsrb	$9, 39(%rax,%r10,4), %xmm15
	pinsrb	$11, 44(%rax,%r10,4), %xmm13
	pinsrb	$10, 43(%rax,%r10,4), %xmm15
	pinsrb	$11, 45(%rax,%r10,4), %xmm14
	pinsrb	$11, 47(%rax,%r10,4), %xmm15
	pinsrb	$12, 48(%rax,%r10,4), %xmm13
	pinsrb	$1, 6(%rax,%r10,4), %xmm10
	pinsrb	$12, 49(%rax,%r10,4), %xmm14
	pinsrb	$2, 10(%rax,%r10,4), %xmm10
	pinsrb	$12, 51(%rax,%r10,4), %xmm15
	pinsrb	$3, 14(%rax,%r10,4), %xmm10
	pinsrb	$13, 52(%rax,%r10,4), %xmm13
	pinsrb	$4, 18(%rax,%r10,4), %xmm10
	pinsrb	$13, 53(%rax,%r10,4), %xmm14
	pinsrb	$5, 22(%rax,%r10,4), %xmm10
	pinsrb	$13, 55(%rax,%r10,4), %xmm15
	pinsrb	$6, 26(%rax,%r10,4), %xmm10
	pinsrb	$14, 56(%rax,%r10,4), %xmm13
	pinsrb	$7, 30(%rax,%r10,4), %xmm10
	pinsrb	$14, 57(%rax,%r10,4), %xmm14
	pinsrb	$8, 34(%rax,%r10,4), %xmm10
	pinsrb	$14, 59(%rax,%r10,4), %xmm15
	pinsrb	$9, 38(%rax,%r10,4), %xmm10
	pinsrb	$15, 60(%rax,%r10,4), %xmm13
	pinsrb	$10, 42(%rax,%r10,4), %xmm10
	pinsrb	$15, 61(%rax,%r10,4), %xmm14
	pinsrb	$11, 46(%rax,%r10,4), %xmm10
	pinsrb	$15, 63(%rax,%r10,4), %xmm15
	pand	%xmm3, %xmm2
	pinsrb	$12, 50(%rax,%r10,4), %xmm10
	psrlw	$2, %xmm1
	pand	%xmm3, %xmm5
	pinsrb	$13, 54(%rax,%r10,4), %xmm10
	pand	%xmm3, %xmm1
	pand	%xmm3, %xmm0
	pinsrb	$14, 58(%rax,%r10,4), %xmm10
	pmaxub	%xmm0, %xmm13
	pmaxub	%xmm5, %xmm14
	pinsrb	$15, 62(%rax,%r10,4), %xmm10
	pmaxub	%xmm1, %xmm15
	pmaxub	%xmm2, %xmm10
	movdqa	%xmm13, %xmm0
	movdqa	%xmm10, %xmm1
	punpcklbw	%xmm14, %xmm0
	punpcklbw	%xmm15, %xmm1
	movdqa	%xmm0, %xmm2
	punpckhbw	%xmm14, %xmm13
	punpckhwd	%xmm1, %xmm0
	punpckhbw	%xmm15, %xmm10
	movdqa	%xmm13, %xmm3
	punpcklwd	%xmm10, %xmm3
	punpcklwd	%xmm1, %xmm2
	punpckhwd	%xmm10, %xmm13
	movdqu	%xmm13, 48(%rax,%r10,4)
	movdqu	%xmm3, 32(%rax,%r10,4)
	movdqu	%xmm0, 16(%rax,%r10,4)
	movdqu	%xmm2, (%rax,%r10,4)
	addq	$16, %r10
	addq	$48, %rcx
	cmpq	%r10, %r8
	jne	.LBB37d7e3d0_862
	cmpq	%r8, %rdx
	je	.LBB37d7e3d0_870
	testb	$8, %dl
	je	.LBB37d7e3d0_868
.LBB37d7e3d0_865:
	movq	%r8, %rcx
	addq	$8, %r13
	movq	%r13, %r8
	andq	%rdx, %r8
	leaq	(%rcx,%rcx,2), %rsi
	addq	480(%rsp), %rsi
	leaq	(%rbx,%rsi), %r9
	addq	$23, %r9
.LBB37d7e3d0_866:
	movzbl	-23(%r9), %esi
	movd	%esi, %xmm3
	pinsrb	$1, -20(%r9), %xmm3
	pinsrb	$2, -17(%r9), %xmm3
	pinsrb	$3, -14(%r9), %xmm3
	movzbl	-11(%r9), %r10d
	movdqa	%xmm3, %xmm1
	pinsrb	$4, %r10d, %xmm1
	movzbl	-8(%r9), %r11d
	pinsrb	$5, %r11d, %xmm1
	movzbl	-5(%r9), %ebp
	pinsrb	$6, %ebp, %xmm1
	movzbl	-2(%r9), %r14d
	pinsrb	$7, %r14d, %xmm1
	movzbl	-21(%r9), %esi
	movd	%esi, %xmm2
	pinsrb	$1, -18(%r9), %xmm2
	pinsrb	$2, -15(%r9), %xmm2
	pinsrb	$3, -12(%r9), %xmm2
	movzbl	-9(%r9), %r15d
	movdqa	%xmm2, %xmm0
	pinsrb	$4, %r15d, %xmm0
	movzbl	-6(%r9), %edi
	pinsrb	$5, %edi, %xmm0
	movzbl	-3(%r9), %esi
	pinsrb	$6, %esi, %xmm0
	pmovzxbd	%xmm3, %xmm4
	movzbl	(%r9), %r13d
	pinsrb	$7, %r13d, %xmm0
	pmovzxbd	%xmm2, %xmm2
	movd	%r10d, %xmm7
	pinsrb	$4, %r11d, %xmm7
	pinsrb	$8, %ebp, %xmm7
	pinsrb	$12, %r14d, %xmm7
	movzbl	-10(%r9), %r10d
	movd	%r10d, %xmm6
	pinsrb	$4, -7(%r9), %xmm6
	pinsrb	$8, -4(%r9), %xmm6
	pinsrb	$12, -1(%r9), %xmm6
	movzbl	-22(%r9), %r10d
	movd	%r10d, %xmm3
	pinsrb	$4, -19(%r9), %xmm3
	pinsrb	$8, -16(%r9), %xmm3
	pinsrb	$12, -13(%r9), %xmm3
	pslld	$8, %xmm3
	movd	%r15d, %xmm5
	pinsrb	$4, %edi, %xmm5
	pinsrb	$8, %esi, %xmm5
	pinsrb	$12, %r13d, %xmm5
	pslld	$8, %xmm6
	pslld	$16, %xmm2
	pslld	$16, %xmm5
	por	%xmm6, %xmm5
	por	%xmm3, %xmm2
	por	%xmm7, %xmm6
	por	%xmm4, %xmm3
	movdqa	.LCPI37d7e3d0_23(%rip), %xmm4
	pand	%xmm4, %xmm1
	psrld	$6, %xmm3
	psrld	$6, %xmm6
	movdqa	.LCPI37d7e3d0_21(%rip), %xmm7
	pand	%xmm7, %xmm6
	pand	%xmm7, %xmm3
	packusdw	%xmm6, %xmm3
	pxor	%xmm6, %xmm6
	packuswb	%xmm6, %xmm3
	pand	%xmm4, %xmm3
	psrld	$12, %xmm2
	psrld	$12, %xmm5
	pand	%xmm7, %xmm5
	pand	%xmm7, %xmm2
	packusdw	%xmm5, %xmm2
	packuswb	%xmm6, %xmm2
	pand	%xmm4, %xmm2
	psrlw	$2, %xmm0
	pand	.LCPI37d7e3d0_22(%rip), %xmm0
	movzbl	(%rax,%rcx,4), %esi
	movd	%esi, %xmm4
	pinsrb	$1, 4(%rax,%rcx,4), %xmm4
	pinsrb	$2, 8(%rax,%rcx,4), %xmm4
	pinsrb	$3, 12(%rax,%rcx,4), %xmm4
	pinsrb	$4, 16(%rax,%rcx,4), %xmm4
	pinsrb	$5, 20(%rax,%rcx,4), %xmm4
	pinsrb	$6, 24(%rax,%rcx,4), %xmm4
	pinsrb	$7, 28(%rax,%rcx,4), %xmm4
	movzbl	1(%rax,%rcx,4), %esi
	movd	%esi, %xmm5
	pinsrb	$1, 5(%rax,%rcx,4), %xmm5
	pinsrb	$2, 9(%rax,%rcx,4), %xmm5
	pinsrb	$3, 13(%rax,%rcx,4), %xmm5
	pinsrb	$4, 17(%rax,%rcx,4), %xmm5
	pinsrb	$5, 21(%rax,%rcx,4), %xmm5
	pinsrb	$6, 25(%rax,%rcx,4), %xmm5
	pinsrb	$7, 29(%rax,%rcx,4), %xmm5
	pmaxub	%xmm1, %xmm4
	pmaxub	%xmm3, %xmm5
	movzbl	2(%rax,%rcx,4), %esi
	movd	%esi, %xmm1
	pinsrb	$1, 6(%rax,%rcx,4), %xmm1
	pinsrb	$2, 10(%rax,%rcx,4), %xmm1
	pinsrb	$3, 14(%rax,%rcx,4), %xmm1
	pinsrb	$4, 18(%rax,%rcx,4), %xmm1
	pinsrb	$5, 22(%rax,%rcx,4), %xmm1
	pinsrb	$6, 26(%rax,%rcx,4), %xmm1
	pinsrb	$7, 30(%rax,%rcx,4), %xmm1
	movzbl	3(%rax,%rcx,4), %esi
	movd	%esi, %xmm3
	pinsrb	$1, 7(%rax,%rcx,4), %xmm3
	pinsrb	$2, 11(%rax,%rcx,4), %xmm3
	pinsrb	$3, 15(%rax,%rcx,4), %xmm3
	pinsrb	$4, 19(%rax,%rcx,4), %xmm3
	pinsrb	$5, 23(%rax,%rcx,4), %xmm3
	pinsrb	$6, 27(%rax,%rcx,4), %xmm3
	pmaxub	%xmm2, %xmm1
	pinsrb	$7, 31(%rax,%rcx,4), %xmm3
	pmaxub	%xmm0, %xmm3
	movdqa	%xmm4, %xmm0
	punpcklqdq	%xmm5, %xmm0
	movdqa	%xmm1, %xmm2
	punpcklqdq	%xmm3, %xmm2
	movq	.LCPI37d7e3d0_26(%rip), %xmm6
	pshufb	%xmm6, %xmm0
	pshufb	%xmm6, %xmm2
	punpcklwd	%xmm2, %xmm0
	punpcklbw	%xmm5, %xmm4
	punpcklbw	%xmm3, %xmm1
	punpcklwd	%xmm1, %xmm4
	movdqu	%xmm4, (%rax,%rcx,4)
	movdqu	%xmm0, 16(%rax,%rcx,4)
	addq	$8, %rcx
	addq	$24, %r9
	cmpq	%rcx, %r8
	jne	.LBB37d7e3d0_866
	cmpq	%r8, %rdx
	je	.LBB37d7e3d0_870
	jmp	.LBB37d7e3d0_868
.LBB37d7e3d0_888:
	movq	8(%rsp), %rdx
	movq	%rax, %rcx
	andq	$3, %rdx
	je	.LBB37d7e3d0_891
	movq	%rax, %rcx
.LBB37d7e3d0_890:
	movl	(%r15,%rcx,4), %esi
	movq	432(%rsp), %rdi
	movl	%esi, (%rdi,%rcx,4)
	incq	%rcx
	decq	%rdx
	jne	.LBB37d7e3d0_890
.LBB37d7e3d0_891:
	subq	8(%rsp), %rax
	movq	$0, 408(%rsp)
	cmpq	$-4, %rax
	ja	.LBB37d7e3d0_826
.LBB37d7e3d0_892:
	movl	(%r15,%rcx,4), %eax
	movq	432(%rsp), %rdx
	movl	%eax, (%rdx,%rcx,4)
	movl	4(%r15,%rcx,4), %eax
	movl	%eax, 4(%rdx,%rcx,4)
	movl	8(%r15,%rcx,4), %eax
	movl	%eax, 8(%rdx,%rcx,4)
	movl	12(%r15,%rcx,4), %eax
	movl	%eax, 12(%rdx,%rcx,4)
	addq	$4, %rcx
	cmpq	%rcx, 8(%rsp)
	jne	.LBB37d7e3d0_892
	jmp	.LBB37d7e3d0_826
.Lfunc_end37d7e3d0:
	.size	hll_merge.stack.Stack.carry_line.8a2f8b2564a2651f, .Lfunc_end37d7e3d0-hll_merge.stack.Stack.carry_line.8a2f8b2564a2651f
	.section	.rodata.hll_merge.stack.Stack.carry_line.8a2f8b2564a2651f,"a",@progbits
	.p2align	2, 0x0
.LJTI37d7e3d0_0:
	.long	.LBB37d7e3d0_34-.LJTI37d7e3d0_0
	.long	.LBB37d7e3d0_93-.LJTI37d7e3d0_0
	.long	.LBB37d7e3d0_62-.LJTI37d7e3d0_0
	.long	.LBB37d7e3d0_73-.LJTI37d7e3d0_0
.LJTI37d7e3d0_1:
	.long	.LBB37d7e3d0_180-.LJTI37d7e3d0_1
	.long	.LBB37d7e3d0_248-.LJTI37d7e3d0_1
	.long	.LBB37d7e3d0_253-.LJTI37d7e3d0_1
	.long	.LBB37d7e3d0_258-.LJTI37d7e3d0_1
	.long	.LBB37d7e3d0_250-.LJTI37d7e3d0_1
.LJTI37d7e3d0_2:
	.long	.LBB37d7e3d0_683-.LJTI37d7e3d0_2
	.long	.LBB37d7e3d0_683-.LJTI37d7e3d0_2
	.long	.LBB37d7e3d0_765-.LJTI37d7e3d0_2
	.long	.LBB37d7e3d0_766-.LJTI37d7e3d0_2
	.long	.LBB37d7e3d0_764-.LJTI37d7e3d0_2
.LJTI37d7e3d0_3:
	.long	.LBB37d7e3d0_711-.LJTI37d7e3d0_3
	.long	.LBB37d7e3d0_711-.LJTI37d7e3d0_3
	.long	.LBB37d7e3d0_715-.LJTI37d7e3d0_3
	.long	.LBB37d7e3d0_724-.LJTI37d7e3d0_3
	.long	.LBB37d7e3d0_713-.LJTI37d7e3d0_3
.LJTI37d7e3d0_4:
	.long	.LBB37d7e3d0_305-.LJTI37d7e3d0_4
	.long	.LBB37d7e3d0_305-.LJTI37d7e3d0_4
	.long	.LBB37d7e3d0_310-.LJTI37d7e3d0_4
	.long	.LBB37d7e3d0_312-.LJTI37d7e3d0_4
	.long	.LBB37d7e3d0_308-.LJTI37d7e3d0_4
.LJTI37d7e3d0_5:
	.long	.LBB37d7e3d0_297-.LJTI37d7e3d0_5
	.long	.LBB37d7e3d0_297-.LJTI37d7e3d0_5
	.long	.LBB37d7e3d0_329-.LJTI37d7e3d0_5
	.long	.LBB37d7e3d0_336-.LJTI37d7e3d0_5
	.long	.LBB37d7e3d0_334-.LJTI37d7e3d0_5
.LJTI37d7e3d0_6:
	.long	.LBB37d7e3d0_341-.LJTI37d7e3d0_6
	.long	.LBB37d7e3d0_341-.LJTI37d7e3d0_6
	.long	.LBB37d7e3d0_364-.LJTI37d7e3d0_6
	.long	.LBB37d7e3d0_367-.LJTI37d7e3d0_6
	.long	.LBB37d7e3d0_362-.LJTI37d7e3d0_6
.LJTI37d7e3d0_7:
	.long	.LBB37d7e3d0_402-.LJTI37d7e3d0_7
	.long	.LBB37d7e3d0_402-.LJTI37d7e3d0_7
	.long	.LBB37d7e3d0_520-.LJTI37d7e3d0_7
	.long	.LBB37d7e3d0_522-.LJTI37d7e3d0_7
	.long	.LBB37d7e3d0_518-.LJTI37d7e3d0_7
.LJTI37d7e3d0_8:
	.long	.LBB37d7e3d0_344-.LJTI37d7e3d0_8
	.long	.LBB37d7e3d0_344-.LJTI37d7e3d0_8
	.long	.LBB37d7e3d0_370-.LJTI37d7e3d0_8
	.long	.LBB37d7e3d0_373-.LJTI37d7e3d0_8
	.long	.LBB37d7e3d0_368-.LJTI37d7e3d0_8
.LJTI37d7e3d0_9:
	.long	.LBB37d7e3d0_332-.LJTI37d7e3d0_9
	.long	.LBB37d7e3d0_332-.LJTI37d7e3d0_9
	.long	.LBB37d7e3d0_358-.LJTI37d7e3d0_9
	.long	.LBB37d7e3d0_361-.LJTI37d7e3d0_9
	.long	.LBB37d7e3d0_356-.LJTI37d7e3d0_9
.LJTI37d7e3d0_10:
	.long	.LBB37d7e3d0_567-.LJTI37d7e3d0_10
	.long	.LBB37d7e3d0_567-.LJTI37d7e3d0_10
	.long	.LBB37d7e3d0_610-.LJTI37d7e3d0_10
	.long	.LBB37d7e3d0_611-.LJTI37d7e3d0_10
	.long	.LBB37d7e3d0_609-.LJTI37d7e3d0_10
.LJTI37d7e3d0_11:
	.long	.LBB37d7e3d0_616-.LJTI37d7e3d0_11
	.long	.LBB37d7e3d0_624-.LJTI37d7e3d0_11
	.long	.LBB37d7e3d0_618-.LJTI37d7e3d0_11
	.long	.LBB37d7e3d0_620-.LJTI37d7e3d0_11
	.long	.LBB37d7e3d0_617-.LJTI37d7e3d0_11
.LJTI37d7e3d0_12:
	.long	.LBB37d7e3d0_255-.LJTI37d7e3d0_12
	.long	.LBB37d7e3d0_255-.LJTI37d7e3d0_12
	.long	.LBB37d7e3d0_280-.LJTI37d7e3d0_12
	.long	.LBB37d7e3d0_286-.LJTI37d7e3d0_12
	.long	.LBB37d7e3d0_278-.LJTI37d7e3d0_12

	.section	.text.core.cmp.slices.groups_equal._i8_31_core.cmp.numbers.U8PartialEq,"ax",@progbits
	.p2align	4
	.type	core.cmp.slices.groups_equal._i8_31_core.cmp.numbers.U8PartialEq,@function
core.cmp.slices.groups_equal._i8_31_core.cmp.numbers.U8PartialEq:
	cmpq	$8, %rsi
	ja	.LBBb5d67b4a_2
	movd	(%rdi), %xmm0
	pinsrd	$1, -4(%rdi,%rsi), %xmm0
	movd	(%rdx), %xmm1
	pinsrd	$1, -4(%rdx,%rsi), %xmm1
	movq	%xmm0, %rax
	movq	%xmm1, %rcx
	cmpq	%rcx, %rax
	jmp	.LBBb5d67b4a_16
.LBBb5d67b4a_2:
	cmpq	$32, %rsi
	ja	.LBBb5d67b4a_4
	leaq	-8(%rsi), %rax
	cmpq	$8, %rax
	movl	$8, %ecx
	cmovbq	%rax, %rcx
	cmpq	$16, %rax
	movl	$16, %r8d
	cmovbq	%rax, %r8
	movq	(%rdi,%rcx), %xmm0
	movq	(%rdi), %xmm1
	punpcklqdq	%xmm0, %xmm1
	movq	(%rdi,%r8), %xmm0
	movq	-8(%rdi,%rsi), %xmm2
	punpcklqdq	%xmm2, %xmm0
	movq	(%rdx,%rcx), %xmm2
	movq	(%rdx), %xmm3
	punpcklqdq	%xmm2, %xmm3
	pxor	%xmm1, %xmm3
	movq	(%rdx,%r8), %xmm1
	movq	-8(%rdx,%rsi), %xmm2
	punpcklqdq	%xmm2, %xmm1
	pxor	%xmm0, %xmm1
	por	%xmm3, %xmm1
	ptest	%xmm1, %xmm1
	jmp	.LBBb5d67b4a_16
.LBBb5d67b4a_4:
	cmpq	$65, %rsi
	jae	.LBBb5d67b4a_5
	movdqu	(%rdi), %xmm0
	movdqu	16(%rdi), %xmm1
	movdqu	(%rdx), %xmm2
	pxor	%xmm0, %xmm2
	movdqu	16(%rdx), %xmm0
	pxor	%xmm1, %xmm0
	movdqu	-32(%rdi,%rsi), %xmm1
	movdqu	-16(%rdi,%rsi), %xmm3
	movdqu	-32(%rdx,%rsi), %xmm4
	pxor	%xmm1, %xmm4
	por	%xmm2, %xmm4
	movdqu	-16(%rdx,%rsi), %xmm1
	pxor	%xmm3, %xmm1
	por	%xmm0, %xmm1
	por	%xmm4, %xmm1
	ptest	%xmm1, %xmm1
	jmp	.LBBb5d67b4a_16
.LBBb5d67b4a_5:
	xorl	%eax, %eax
	movq	%rsi, %rcx
	.p2align	4
.LBBb5d67b4a_6:
	movdqu	(%rdi,%rax), %xmm0
	movdqu	16(%rdi,%rax), %xmm1
	movdqu	32(%rdi,%rax), %xmm2
	movdqu	48(%rdi,%rax), %xmm3
	movdqu	(%rdx,%rax), %xmm4
	pcmpeqb	%xmm0, %xmm4
	movdqu	16(%rdx,%rax), %xmm0
	pcmpeqb	%xmm1, %xmm0
	movdqu	32(%rdx,%rax), %xmm1
	pcmpeqb	%xmm2, %xmm1
	pand	%xmm4, %xmm1
	movdqu	48(%rdx,%rax), %xmm2
	pcmpeqb	%xmm3, %xmm2
	pand	%xmm0, %xmm2
	pand	%xmm1, %xmm2
	pmovmskb	%xmm2, %r8d
	cmpl	$65535, %r8d
	jne	.LBBb5d67b4a_8
	addq	$64, %rax
	addq	$-64, %rcx
	cmpq	$63, %rcx
	ja	.LBBb5d67b4a_6
.LBBb5d67b4a_8:
	cmpq	$32, %rcx
	jb	.LBBb5d67b4a_15
	movq	%rsi, %rcx
	subq	%rax, %rcx
	.p2align	4
.LBBb5d67b4a_10:
	movdqu	(%rdi,%rax), %xmm0
	movdqu	16(%rdi,%rax), %xmm1
	movdqu	(%rdx,%rax), %xmm2
	pxor	%xmm0, %xmm2
	movdqu	16(%rdx,%rax), %xmm0
	pxor	%xmm1, %xmm0
	por	%xmm2, %xmm0
	ptest	%xmm0, %xmm0
	jne	.LBBb5d67b4a_14
	addq	$32, %rax
	addq	$-32, %rcx
	cmpq	$32, %rcx
	jae	.LBBb5d67b4a_10
	jmp	.LBBb5d67b4a_15
.LBBb5d67b4a_14:
	movb	$1, %al
	cmpq	$31, %rcx
	ja	.LBBb5d67b4a_17
.LBBb5d67b4a_15:
	movdqu	-32(%rdi,%rsi), %xmm0
	movdqu	-16(%rdi,%rsi), %xmm1
	movdqu	-32(%rdx,%rsi), %xmm2
	pxor	%xmm0, %xmm2
	movdqu	-16(%rdx,%rsi), %xmm0
	pxor	%xmm1, %xmm0
	por	%xmm2, %xmm0
	ptest	%xmm0, %xmm0
.LBBb5d67b4a_16:
	setne	%al
.LBBb5d67b4a_17:
	xorb	$1, %al
	retq
.Lfunc_endb5d67b4a:
	.size	core.cmp.slices.groups_equal._i8_31_core.cmp.numbers.U8PartialEq, .Lfunc_endb5d67b4a-core.cmp.slices.groups_equal._i8_31_core.cmp.numbers.U8PartialEq

	.section	.rodata.cst16,"aM",@progbits,16
	.p2align	4, 0x0
.LCPIfbb66151_0:
	.zero	16,15
.LCPIfbb66151_1:
	.zero	16,1
.LCPIfbb66151_2:
	.byte	15
	.byte	15
	.byte	15
	.byte	15
	.zero	1
	.zero	1
	.zero	1
	.zero	1
	.zero	1
	.zero	1
	.zero	1
	.zero	1
	.zero	1
	.zero	1
	.zero	1
	.zero	1
.LCPIfbb66151_3:
	.long	1
	.long	1
	.long	1
	.long	1
.LCPIfbb66151_4:
	.byte	16
	.byte	16
	.byte	16
	.byte	16
	.zero	1
	.zero	1
	.zero	1
	.zero	1
	.zero	1
	.zero	1
	.zero	1
	.zero	1
	.zero	1
	.zero	1
	.zero	1
	.zero	1
.LCPIfbb66151_5:
	.byte	239
	.byte	239
	.byte	239
	.byte	239
	.zero	1
	.zero	1
	.zero	1
	.zero	1
	.zero	1
	.zero	1
	.zero	1
	.zero	1
	.zero	1
	.zero	1
	.zero	1
	.zero	1
	.section	.text.hll_sketch.sketch.HllSketch.deserialize.8a2f8b2564a2651f,"ax",@progbits
	.p2align	4
	.type	hll_sketch.sketch.HllSketch.deserialize.8a2f8b2564a2651f,@function
hll_sketch.sketch.HllSketch.deserialize.8a2f8b2564a2651f:
	pushq	%rbp
	pushq	%r15
	pushq	%r14
	pushq	%r13
	pushq	%r12
	pushq	%rbx
	subq	$600, %rsp
	cmpq	$8, %rdx
	jae	.LBBfbb66151_2
	xorl	%ecx, %ecx
	jmp	.LBBfbb66151_22
.LBBfbb66151_2:
	movb	$1, %cl
	cmpb	$7, 2(%rsi)
	jne	.LBBfbb66151_22
	movb	$2, %cl
	cmpb	$1, 1(%rsi)
	jne	.LBBfbb66151_22
	movzbl	3(%rsi), %r15d
	leal	-4(%r15), %eax
	movb	$3, %cl
	cmpb	$17, %al
	ja	.LBBfbb66151_22
	movzbl	7(%rsi), %r8d
	movl	%r8d, %eax
	shrl	$2, %eax
	andl	$3, %eax
	movb	$4, %cl
	cmpl	$3, %eax
	je	.LBBfbb66151_22
	andl	$3, %r8d
	leaq	.LJTIfbb66151_0(%rip), %rcx
	movslq	(%rcx,%r8,4), %r9
	addq	%rcx, %r9
	jmpq	*%r9
.LBBfbb66151_7:
	movb	$2, %r9b
	jmp	.LBBfbb66151_11
.LBBfbb66151_8:
	movb	$10, %r9b
	jmp	.LBBfbb66151_11
.LBBfbb66151_9:
	movb	$5, %cl
	jmp	.LBBfbb66151_22
.LBBfbb66151_10:
	movb	$3, %r9b
.LBBfbb66151_11:
	movb	$6, %cl
	cmpb	%r9b, (%rsi)
	jne	.LBBfbb66151_22
	movzbl	%r15b, %ecx
	movzbl	5(%rsi), %r9d
	movl	%r9d, %r10d
	shrl	$2, %r10d
	andl	$1, %r10d
	movl	%r9d, %ebx
	shrl	$3, %ebx
	andl	$1, %ebx
	shrl	$4, %r9d
	andl	$1, %r9d
	shll	$8, %eax
	movl	%r8d, %r11d
	shll	$16, %r11d
	movzbl	4(%rsi), %r14d
	shll	$24, %r14d
	orl	%eax, %r14d
	orl	%r11d, %r14d
	orq	%rcx, %r14
	shlq	$32, %r10
	shlq	$40, %rbx
	orq	%r10, %rbx
	orq	%r14, %rbx
	shlq	$48, %r9
	movzbl	6(%rsi), %r13d
	shlq	$56, %r13
	orq	%r9, %r13
	orq	%rbx, %r13
	movq	%r13, %rbp
	shrq	$8, %rbp
	movq	%r13, %rax
	shrq	$24, %rax
	movq	%r13, %r12
	shrq	$40, %r12
	movq	%r13, %r10
	shrq	$56, %r10
	cmpb	$2, %r8b
	je	.LBBfbb66151_24
	movzbl	%r8b, %ecx
	cmpl	$1, %ecx
	jne	.LBBfbb66151_37
	cmpb	$5, %al
	setb	%cl
	leal	-3(%r15), %r8d
	cmpb	%al, %r8b
	setb	%r8b
	orb	%cl, %r8b
	jne	.LBBfbb66151_42
	movzbl	%al, %r13d
	btq	$40, %rbx
	jae	.LBBfbb66151_54
	cmpb	$9, %al
	jb	.LBBfbb66151_54
	cmpq	$11, %rdx
	jbe	.LBBfbb66151_69
	movl	8(%rsi), %r8d
	movq	%r8, %rax
	movl	%r13d, %ecx
	shrq	%cl, %rax
	addq	$-12, %rdx
	testq	%rax, %rax
	setne	%al
	movq	%rdx, %rcx
	shrq	$2, %rcx
	cmpq	%r8, %rcx
	setb	%cl
	orb	%al, %cl
	jne	.LBBfbb66151_66
	leaq	12(%rsi), %rax
	movq	%rax, 144(%rsp)
	movq	%rdx, 152(%rsp)
	movq	%r8, 160(%rsp)
	cmpl	$128, %r8d
	ja	.LBBfbb66151_66
	movq	%r8, 72(%rsp)
	movq	%rbp, 88(%rsp)
	movq	%r15, %rbp
	movq	%rdx, %r15
	movq	%rsi, %r12
	movq	%rdi, 64(%rsp)
	leaq	144(%rsp), %rdi
	callq	hll_sketch.raw_coupons.RawCoupons.differ
	testb	%al, %al
	je	.LBBfbb66151_113
	movq	$0, 192(%rsp)
	movb	$1, %bl
	movq	64(%rsp), %rdi
	movq	%r12, %rsi
	movq	%r15, %rdx
	movq	%rbp, %r15
	movq	88(%rsp), %rbp
	movq	72(%rsp), %r8
	jmp	.LBBfbb66151_67
.LBBfbb66151_22:
	movb	$1, (%rdi)
	movb	%cl, 1(%rdi)
	movb	$0, 8(%rdi)
	pxor	%xmm0, %xmm0
	movdqu	%xmm0, 16(%rdi)
	movdqu	%xmm0, 32(%rdi)
	movdqu	%xmm0, 48(%rdi)
	movdqu	%xmm0, 64(%rdi)
	movdqu	%xmm0, 80(%rdi)
	movq	$0, 96(%rdi)
.LBBfbb66151_23:
	addq	$600, %rsp
	popq	%rbx
	popq	%r12
	popq	%r13
	popq	%r14
	popq	%r15
	popq	%rbp
	retq
.LBBfbb66151_24:
	movq	%r13, %r8
	shrq	$48, %r8
	movq	%r8, 96(%rsp)
	leaq	-8(%rdx), %r8
	cmpb	$2, %bpl
	je	.LBBfbb66151_43
	movzbl	%bpl, %r9d
	cmpl	$1, %r9d
	jne	.LBBfbb66151_49
	movl	$1, %r9d
	movq	%rcx, %rax
	shlq	%cl, %r9
	cmpq	$8, %r8
	jb	.LBBfbb66151_47
	movq	%r8, %rcx
	andq	$-8, %rcx
	cmpq	$8, %rcx
	je	.LBBfbb66151_47
	cmpq	$16, %rcx
	je	.LBBfbb66151_47
	orq	$4, %r8
	andq	$-4, %r8
	cmpq	$28, %r8
	je	.LBBfbb66151_47
	movq	%rdi, %r13
	movq	%rsi, %r14
	movl	32(%rsi), %esi
	movq	$0, 32(%rsp)
	movb	$8, %cl
	cmpq	%rsi, %r9
	jb	.LBBfbb66151_123
	cmpl	$0, 36(%r14)
	jne	.LBBfbb66151_123
	movl	$3, %esi
	movl	%eax, %ecx
	shlq	%cl, %rsi
	addq	$-40, %rdx
	shrq	$2, %rsi
	cmpq	%rsi, %rdx
	jbe	.LBBfbb66151_146
	movq	8(%r14), %r12
	movq	16(%r14), %rcx
	movq	%rcx, 72(%rsp)
	movq	24(%r14), %rbp
	incl	%esi
	movl	$2863311531, %eax
	imulq	%rsi, %rax
	shrq	$33, %rax
	movq	%rax, 8(%rsp)
	leaq	(%rax,%rax,2), %rdi
	movl	$1, %esi
	movq	%rdi, %rbx
	callq	rattle_alloc@PLT
	movq	%rdx, 48(%rsp)
	testb	$1, %al
	je	.LBBfbb66151_159
	movq	96(%rsp), %rax
	andb	$1, %al
	movq	%rax, 96(%rsp)
	leaq	40(%r14), %rsi
	movq	48(%rsp), %rax
	subq	%rsi, %rax
	cmpq	%rbx, %rax
	jae	.LBBfbb66151_210
	movq	8(%rsp), %rcx
	movl	%ecx, %eax
	andl	$7, %eax
	decl	%ecx
	cmpl	$7, %ecx
	jae	.LBBfbb66151_229
	xorl	%ecx, %ecx
	jmp	.LBBfbb66151_232
.LBBfbb66151_37:
	cmpb	$3, %al
	jne	.LBBfbb66151_42
	movq	$0, 192(%rsp)
	testq	%r10, %r10
	setne	%al
	movb	$8, %r9b
	cmpl	$8, %r10d
	ja	.LBBfbb66151_41
	shrq	$32, %rbx
	movl	%ebx, %ecx
	andl	$1, %ecx
	xorb	%al, %cl
	je	.LBBfbb66151_41
	addq	$-8, %rdx
	testb	$1, %r12b
	movl	$8, %eax
	cmovneq	%r10, %rax
	xorl	%r9d, %r9d
	testb	$1, %bl
	movl	$0, %ecx
	cmoveq	%rax, %rcx
	leal	(,%rcx,4), %eax
	cmpq	%rax, %rdx
	jae	.LBBfbb66151_56
.LBBfbb66151_41:
	movb	$1, %al
	movq	%rax, 16(%rsp)
	movq	$0, 24(%rsp)
	movq	$0, 32(%rsp)
	xorl	%eax, %eax
	xorl	%edx, %edx
	xorl	%ebx, %ebx
	xorl	%r14d, %r14d
	movq	$0, 8(%rsp)
	xorl	%r13d, %r13d
	xorl	%r12d, %r12d
	xorl	%r11d, %r11d
	xorl	%esi, %esi
	xorl	%ebp, %ebp
	xorl	%r8d, %r8d
	xorl	%r15d, %r15d
	movq	%r9, %rcx
	jmp	.LBBfbb66151_73
.LBBfbb66151_42:
	movb	$1, %al
	movq	%rax, 16(%rsp)
	movq	$0, 24(%rsp)
	movb	$7, %cl
	jmp	.LBBfbb66151_72
.LBBfbb66151_43:
	movl	$1, %r13d
	shlq	%cl, %r13
	cmpq	$8, %r8
	jb	.LBBfbb66151_47
	movq	%r8, %rax
	andq	$-8, %rax
	cmpq	$8, %rax
	je	.LBBfbb66151_47
	cmpq	$16, %rax
	je	.LBBfbb66151_47
	orq	$4, %r8
	andq	$-4, %r8
	cmpq	$28, %r8
	jne	.LBBfbb66151_114
.LBBfbb66151_47:
	movb	$1, %al
	movq	%rax, 16(%rsp)
	xorl	%ecx, %ecx
	xorl	%r9d, %r9d
	movq	$0, 32(%rsp)
	movq	$0, 48(%rsp)
	xorl	%r13d, %r13d
	xorl	%r12d, %r12d
	xorl	%r11d, %r11d
	xorl	%ebp, %ebp
	xorl	%r15d, %r15d
.LBBfbb66151_48:
	movabsq	$-4294967296, %rsi
	andq	%r11, %rsi
	movq	%rbp, %r8
	andq	$-256, %r8
	xorl	%edx, %edx
	movq	%r9, 24(%rsp)
	movl	%r9d, %eax
	xorl	%ebx, %ebx
	movq	%r13, 8(%rsp)
	xorl	%r9d, %r9d
	xorl	%r10d, %r10d
	movq	48(%rsp), %r14
	jmp	.LBBfbb66151_75
.LBBfbb66151_49:
	cmpq	$8, %r8
	jb	.LBBfbb66151_52
	movq	%r8, %r9
	andq	$-8, %r9
	cmpq	$8, %r9
	je	.LBBfbb66151_52
	cmpq	$16, %r9
	jne	.LBBfbb66151_96
.LBBfbb66151_52:
	movb	$1, %al
	movq	%rax, 16(%rsp)
.LBBfbb66151_53:
	xorl	%ecx, %ecx
	jmp	.LBBfbb66151_71
.LBBfbb66151_54:
	movq	$0, 192(%rsp)
	cmpq	$12, %rdx
	jb	.LBBfbb66151_69
	shrq	$40, %rbx
	movl	8(%rsi), %r8d
	addq	$-12, %rdx
	jmp	.LBBfbb66151_67
.LBBfbb66151_56:
	movq	$3, 144(%rsp)
	pxor	%xmm0, %xmm0
	movdqu	%xmm0, 152(%rsp)
	movdqu	%xmm0, 168(%rsp)
	movdqu	%xmm0, 180(%rsp)
	testq	%rcx, %rcx
	movq	%r15, 24(%rsp)
	je	.LBBfbb66151_90
	testb	$1, %r12b
	movq	%rsi, 80(%rsp)
	movq	%rdi, 64(%rsp)
	movq	%rbp, 88(%rsp)
	je	.LBBfbb66151_99
	movl	$67108863, %r14d
	xorl	%r12d, %r12d
	xorl	%r15d, %r15d
	jmp	.LBBfbb66151_62
.LBBfbb66151_59:
	cmpb	$0, 160(%rsp)
	je	.LBBfbb66151_65
	movq	168(%rsp), %rax
	movl	%ebx, (%rax,%r12,4)
.LBBfbb66151_61:
	movq	152(%rsp), %r12
	incq	%r12
	cmpl	%r14d, %ebx
	cmoval	%ebx, %r14d
	movq	%r12, 152(%rsp)
	incq	%r15
	cmpq	%r15, %rcx
	je	.LBBfbb66151_91
.LBBfbb66151_62:
	movl	8(%rsi,%r15,4), %ebx
	cmpl	%r14d, %ebx
	ja	.LBBfbb66151_59
	cmpl	$67108864, %ebx
	jb	.LBBfbb66151_109
	leaq	144(%rsp), %rdi
	movl	%ebx, %esi
	movq	%r10, %r13
	movq	%rcx, %rbp
	callq	hll_coupons.list.List.contains.309f015d8caa795c
	movq	%rbp, %rcx
	movq	%r13, %r10
	movq	80(%rsp), %rsi
	movq	88(%rsp), %rbp
	movq	64(%rsp), %rdi
	testb	%al, %al
	je	.LBBfbb66151_59
	jmp	.LBBfbb66151_109
.LBBfbb66151_65:
	movl	%ebx, 164(%rsp,%r12,4)
	jmp	.LBBfbb66151_61
.LBBfbb66151_66:
	movq	$0, 192(%rsp)
	movb	$1, %bl
.LBBfbb66151_67:
	movl	$1, %r12d
	movl	%r13d, %ecx
	shlq	%cl, %r12
	movb	$8, %cl
	cmpq	%r8, %r12
	jbe	.LBBfbb66151_70
	testb	%bl, %bl
	movq	%r12, %rcx
	cmovneq	%r8, %rcx
	leaq	(,%rcx,4), %rax
	cmpq	%rax, %rdx
	jae	.LBBfbb66151_76
.LBBfbb66151_69:
	xorl	%ecx, %ecx
.LBBfbb66151_70:
	movb	$1, %al
	movq	%rax, 16(%rsp)
.LBBfbb66151_71:
	movq	$0, 24(%rsp)
.LBBfbb66151_72:
	movq	$0, 32(%rsp)
	xorl	%eax, %eax
	xorl	%edx, %edx
	xorl	%ebx, %ebx
	xorl	%r14d, %r14d
	movq	$0, 8(%rsp)
	xorl	%r13d, %r13d
	xorl	%r12d, %r12d
	xorl	%r11d, %r11d
	xorl	%esi, %esi
	xorl	%ebp, %ebp
	xorl	%r8d, %r8d
	xorl	%r15d, %r15d
.LBBfbb66151_73:
	xorl	%r9d, %r9d
.LBBfbb66151_74:
	xorl	%r10d, %r10d
.LBBfbb66151_75:
	movzbl	%al, %eax
	orq	%rdx, %rax
	movl	%r11d, %edx
	orq	%rsi, %rdx
	movzbl	%bpl, %esi
	orq	%r8, %rsi
	movzbl	%r15b, %r8d
	orq	%r9, %r8
	movq	16(%rsp), %r9
	movb	%r9b, (%rdi)
	movb	%cl, 1(%rdi)
	movq	24(%rsp), %rcx
	movb	%cl, 8(%rdi)
	movq	32(%rsp), %rcx
	movq	%rcx, 16(%rdi)
	movq	%rax, 24(%rdi)
	movq	%rbx, 32(%rdi)
	movq	%r14, 40(%rdi)
	movq	8(%rsp), %rax
	movq	%rax, 48(%rdi)
	movq	%r13, 56(%rdi)
	movq	%r12, 64(%rdi)
	movq	%rdx, 72(%rdi)
	movq	%rsi, 80(%rdi)
	movq	%r8, 88(%rdi)
	movq	%r10, 96(%rdi)
	jmp	.LBBfbb66151_23
.LBBfbb66151_76:
	movq	%rcx, 8(%rsp)
	movq	%r8, 72(%rsp)
	movq	%rdx, 32(%rsp)
	movq	%rsi, 80(%rsp)
	movb	$12, %cl
	cmpl	$60, %r13d
	ja	.LBBfbb66151_70
	movl	$4, %eax
	movl	%r13d, %ecx
	shlq	%cl, %rax
	movl	$4, %esi
	movq	%rdi, 64(%rsp)
	movq	%rax, 16(%rsp)
	movq	%rax, %rdi
	callq	rattle_alloc@PLT
	movb	$12, %cl
	movq	64(%rsp), %rdi
	testb	$1, %al
	je	.LBBfbb66151_70
	movq	%rdx, %r14
	movq	%rbp, 88(%rsp)
	movq	%r15, 24(%rsp)
	movq	16(%rsp), %r15
	leaq	-4(%r15), %rdx
	xorl	%ebp, %ebp
	movq	%r14, %rdi
	xorl	%esi, %esi
	callq	memset@PLT
	movl	$0, -4(%r14,%r15)
	movq	%r13, 144(%rsp)
	movq	$1, 160(%rsp)
	movq	%r14, 168(%rsp)
	movq	%r12, 176(%rsp)
	movq	%r12, 184(%rsp)
	movl	$0, 192(%rsp)
	cmpq	$0, 8(%rsp)
	je	.LBBfbb66151_151
	movq	%r14, %r15
	movq	$-1, %rax
	movl	%r13d, %ecx
	shlq	%cl, %rax
	addq	$12, 80(%rsp)
	notq	%rax
	cmpq	$64, %r12
	movl	$64, %edx
	cmovbq	%r12, %rdx
	xorl	%ebp, %ebp
	testb	%bl, %bl
	je	.LBBfbb66151_130
	movq	80(%rsp), %rsi
	movq	32(%rsp), %rdi
.LBBfbb66151_81:
	subq	$4, %rdi
	jb	.LBBfbb66151_259
	movl	(%rsi), %r8d
	movb	$9, %cl
	movq	%rcx, 48(%rsp)
	cmpq	$67108864, %r8
	jb	.LBBfbb66151_145
	movl	%r8d, %r9d
	andl	$67108863, %r9d
	movl	%r13d, %ecx
	shrl	%cl, %r9d
	addq	$4, %rsi
	orl	$1, %r9d
	movq	%rdx, %r10
	movq	%r8, %rcx
	movq	%r15, %r14
.LBBfbb66151_84:
	andq	%rax, %rcx
	movl	(%r14,%rcx,4), %r11d
	testl	%r11d, %r11d
	je	.LBBfbb66151_87
	cmpl	%r8d, %r11d
	je	.LBBfbb66151_87
	addq	%r9, %rcx
	decq	%r10
	jne	.LBBfbb66151_84
	jmp	.LBBfbb66151_141
.LBBfbb66151_87:
	testl	%r11d, %r11d
	jne	.LBBfbb66151_145
	movl	%r8d, (%r15,%rcx,4)
	movq	%rbp, %rcx
	incq	%rcx
	movq	%rcx, %rbp
	cmpq	8(%rsp), %rcx
	jne	.LBBfbb66151_81
	movq	8(%rsp), %rbp
	jmp	.LBBfbb66151_151
.LBBfbb66151_90:
	xorl	%r12d, %r12d
.LBBfbb66151_91:
	cmpq	%r10, %r12
	jne	.LBBfbb66151_93
	movq	144(%rsp), %rax
	movzbl	160(%rsp), %ecx
	movq	168(%rsp), %rdx
	movq	%rdx, 8(%rsp)
	movq	176(%rsp), %r13
	movq	184(%rsp), %r12
	movl	192(%rsp), %r11d
	movl	164(%rsp), %r14d
	movq	%rax, %rdx
	andq	$-256, %rdx
	shlq	$32, %r14
	orq	%rcx, %r14
	movq	$0, 16(%rsp)
	xorl	%ecx, %ecx
	movq	$0, 32(%rsp)
	xorl	%esi, %esi
	xorl	%r8d, %r8d
	xorl	%r15d, %r15d
	xorl	%r9d, %r9d
	movq	%r10, %rbx
	jmp	.LBBfbb66151_74
.LBBfbb66151_93:
	cmpb	$0, 160(%rsp)
	je	.LBBfbb66151_120
	movb	$8, %al
	movq	%rax, 48(%rsp)
	movq	%rdi, %rbx
	cmpq	$0, 184(%rsp)
	je	.LBBfbb66151_118
	movb	$1, %al
	movq	%rax, 16(%rsp)
	movq	168(%rsp), %rdi
	callq	rattle_dealloc@PLT
	jmp	.LBBfbb66151_119
.LBBfbb66151_96:
	movb	$1, %r9b
	movq	%r9, 16(%rsp)
	orq	$4, %r8
	andq	$-4, %r8
	cmpq	$28, %r8
	je	.LBBfbb66151_53
	movq	%r10, 72(%rsp)
	movq	%r15, 24(%rsp)
	movq	%rdi, 64(%rsp)
	movl	$1, %r8d
	movq	%rcx, 328(%rsp)
	shlq	%cl, %r8
	movl	32(%rsi), %edi
	movq	%rsi, 80(%rsp)
	movl	36(%rsi), %esi
	cmpq	%rdi, %r8
	setb	%cl
	movq	%r8, 280(%rsp)
	movq	%rsi, 288(%rsp)
	cmpq	%rsi, %r8
	setb	%sil
	orb	%cl, %sil
	je	.LBBfbb66151_125
	movq	$0, 24(%rsp)
	movb	$8, %cl
	jmp	.LBBfbb66151_177
.LBBfbb66151_99:
	movl	$67108863, %r15d
	xorl	%r12d, %r12d
	xorl	%r14d, %r14d
.LBBfbb66151_100:
	movl	8(%rsi,%r14,4), %ebx
	cmpl	%r15d, %ebx
	ja	.LBBfbb66151_105
	testl	%ebx, %ebx
	jne	.LBBfbb66151_103
	incq	%r14
	cmpq	%rcx, %r14
	jb	.LBBfbb66151_100
	jmp	.LBBfbb66151_91
.LBBfbb66151_103:
	cmpl	$67108864, %ebx
	jb	.LBBfbb66151_109
	leaq	144(%rsp), %rdi
	movl	%ebx, %esi
	movq	%r10, %r13
	movq	%rcx, %rbp
	callq	hll_coupons.list.List.contains.309f015d8caa795c
	movq	%rbp, %rcx
	movq	%r13, %r10
	movq	80(%rsp), %rsi
	movq	88(%rsp), %rbp
	movq	64(%rsp), %rdi
	testb	%al, %al
	jne	.LBBfbb66151_109
.LBBfbb66151_105:
	cmpb	$0, 160(%rsp)
	je	.LBBfbb66151_107
	movq	168(%rsp), %rax
	movl	%ebx, (%rax,%r12,4)
	jmp	.LBBfbb66151_108
.LBBfbb66151_107:
	movl	%ebx, 164(%rsp,%r12,4)
.LBBfbb66151_108:
	movq	152(%rsp), %r12
	incq	%r12
	cmpl	%r15d, %ebx
	cmoval	%ebx, %r15d
	movq	%r12, 152(%rsp)
	incq	%r14
	cmpq	%rcx, %r14
	jb	.LBBfbb66151_100
	jmp	.LBBfbb66151_91
.LBBfbb66151_109:
	movq	%rdi, %rbx
	cmpb	$0, 160(%rsp)
	movb	$9, %al
	movq	%rax, 48(%rsp)
	je	.LBBfbb66151_112
	cmpq	$0, 184(%rsp)
	je	.LBBfbb66151_112
	movq	168(%rsp), %rdi
	callq	rattle_dealloc@PLT
.LBBfbb66151_112:
	movq	%rbx, %rdi
	jmp	.LBBfbb66151_121
.LBBfbb66151_113:
	movq	$0, 24(%rsp)
	movb	$9, %cl
	movq	$0, 32(%rsp)
	xorl	%edx, %edx
	xorl	%ebx, %ebx
	xorl	%r14d, %r14d
	movq	$0, 8(%rsp)
	xorl	%r13d, %r13d
	xorl	%r12d, %r12d
	xorl	%r11d, %r11d
	xorl	%esi, %esi
	xorl	%ebp, %ebp
	xorl	%r8d, %r8d
	xorl	%r15d, %r15d
	xorl	%r9d, %r9d
	xorl	%r10d, %r10d
	movq	64(%rsp), %rdi
	movb	$1, %al
	movq	%rax, 16(%rsp)
	xorl	%eax, %eax
	jmp	.LBBfbb66151_75
.LBBfbb66151_114:
	movq	%r15, %rbp
	movq	%rdi, %r15
	movl	32(%rsi), %eax
	movq	$0, 32(%rsp)
	movb	$8, %cl
	cmpq	%rax, %r13
	jb	.LBBfbb66151_124
	movq	%rsi, %r14
	cmpl	$0, 36(%rsi)
	jne	.LBBfbb66151_124
	addq	$-40, %rdx
	cmpq	%r13, %rdx
	jae	.LBBfbb66151_147
	xorl	%ecx, %ecx
	jmp	.LBBfbb66151_254
.LBBfbb66151_118:
	movb	$1, %al
	movq	%rax, 16(%rsp)
.LBBfbb66151_119:
	movq	%rbx, %rdi
	jmp	.LBBfbb66151_122
.LBBfbb66151_120:
	movb	$8, %al
	movq	%rax, 48(%rsp)
.LBBfbb66151_121:
	movb	$1, %al
	movq	%rax, 16(%rsp)
.LBBfbb66151_122:
	movq	$0, 24(%rsp)
	movq	$0, 32(%rsp)
	xorl	%eax, %eax
	xorl	%edx, %edx
	xorl	%ebx, %ebx
	xorl	%r14d, %r14d
	movq	$0, 8(%rsp)
	xorl	%r13d, %r13d
	xorl	%r12d, %r12d
	xorl	%r11d, %r11d
	xorl	%esi, %esi
	xorl	%ebp, %ebp
	xorl	%r8d, %r8d
	xorl	%r15d, %r15d
	xorl	%r9d, %r9d
	xorl	%r10d, %r10d
	movq	48(%rsp), %rcx
	jmp	.LBBfbb66151_75
.LBBfbb66151_123:
	xorl	%r9d, %r9d
	jmp	.LBBfbb66151_161
.LBBfbb66151_124:
	xorl	%r9d, %r9d
	jmp	.LBBfbb66151_255
.LBBfbb66151_125:
	movq	80(%rsp), %rcx
	movq	8(%rcx), %rsi
	movq	%rsi, 416(%rsp)
	movq	16(%rcx), %rsi
	movq	%rsi, 88(%rsp)
	movq	24(%rcx), %rcx
	movq	%rcx, 424(%rsp)
	movq	288(%rsp), %rbx
	testb	$1, %r12b
	jne	.LBBfbb66151_173
	xorl	%ebx, %ebx
	cmpq	$0, 288(%rsp)
	je	.LBBfbb66151_173
	cmpb	$26, %al
	jbe	.LBBfbb66151_172
	movb	$7, %cl
.LBBfbb66151_129:
	movq	$0, 24(%rsp)
	movq	$0, 32(%rsp)
	xorl	%edx, %edx
	xorl	%ebx, %ebx
	xorl	%r14d, %r14d
	movq	$0, 8(%rsp)
	xorl	%r13d, %r13d
	xorl	%r12d, %r12d
	xorl	%esi, %esi
	xorl	%ebp, %ebp
	xorl	%r8d, %r8d
	xorl	%r15d, %r15d
	xorl	%r9d, %r9d
	xorl	%r10d, %r10d
	movq	64(%rsp), %rdi
	xorl	%eax, %eax
	xorl	%r11d, %r11d
	jmp	.LBBfbb66151_75
.LBBfbb66151_130:
	xorl	%esi, %esi
	movq	80(%rsp), %rdi
	movq	32(%rsp), %r8
	jmp	.LBBfbb66151_134
.LBBfbb66151_131:
	testl	%r14d, %r14d
	jne	.LBBfbb66151_145
	movl	%r9d, (%r15,%rcx,4)
	incq	%rbp
.LBBfbb66151_133:
	addq	$4, %rdi
	incq	%rsi
	cmpq	8(%rsp), %rsi
	je	.LBBfbb66151_151
.LBBfbb66151_134:
	subq	$4, %r8
	jb	.LBBfbb66151_259
	movl	(%rdi), %r9d
	testq	%r9, %r9
	je	.LBBfbb66151_133
	movb	$9, %cl
	movq	%rcx, 48(%rsp)
	cmpl	$67108864, %r9d
	jb	.LBBfbb66151_145
	movl	%r9d, %r10d
	andl	$67108863, %r10d
	movl	%r13d, %ecx
	shrl	%cl, %r10d
	orl	$1, %r10d
	movq	%rdx, %r11
	movq	%r9, %rcx
	movq	%r15, %r12
.LBBfbb66151_138:
	andq	%rax, %rcx
	movl	(%r12,%rcx,4), %r14d
	testl	%r14d, %r14d
	je	.LBBfbb66151_131
	cmpl	%r9d, %r14d
	je	.LBBfbb66151_131
	addq	%r10, %rcx
	decq	%r11
	jne	.LBBfbb66151_138
.LBBfbb66151_141:
	movq	%rbp, 152(%rsp)
	movzbl	%bl, %r8d
	leaq	144(%rsp), %rdi
	movq	80(%rsp), %rsi
	movq	32(%rsp), %rdx
	movq	8(%rsp), %rcx
	callq	hll_coupons.hash_set.read_by_order.8a2f8b2564a2651f
	movq	%rdx, 48(%rsp)
	testb	%al, %al
	je	.LBBfbb66151_150
	cmpb	$0, 160(%rsp)
	je	.LBBfbb66151_157
	cmpq	$0, 184(%rsp)
	je	.LBBfbb66151_157
	movq	168(%rsp), %r15
	jmp	.LBBfbb66151_145
.LBBfbb66151_146:
	xorl	%ecx, %ecx
	jmp	.LBBfbb66151_160
.LBBfbb66151_147:
	leaq	40(%r14), %rbx
	movq	%r13, %rcx
	shrq	$6, %rcx
	je	.LBBfbb66151_162
	cmpq	$1, %rcx
	jne	.LBBfbb66151_163
	pxor	%xmm0, %xmm0
	xorl	%eax, %eax
	pxor	%xmm2, %xmm2
	pxor	%xmm1, %xmm1
	pxor	%xmm3, %xmm3
	jmp	.LBBfbb66151_166
.LBBfbb66151_150:
	movq	152(%rsp), %rbp
.LBBfbb66151_151:
	cmpq	72(%rsp), %rbp
	jne	.LBBfbb66151_153
	movq	144(%rsp), %rax
	movzbl	160(%rsp), %ecx
	movq	168(%rsp), %rdx
	movq	%rdx, 8(%rsp)
	movq	176(%rsp), %r13
	movq	184(%rsp), %r12
	movl	192(%rsp), %r11d
	movl	164(%rsp), %r14d
	movq	%rax, %rdx
	andq	$-256, %rdx
	shlq	$32, %r14
	orq	%rcx, %r14
	movl	$1, %ecx
	movq	%rcx, 32(%rsp)
	movq	$0, 16(%rsp)
	xorl	%ecx, %ecx
	xorl	%esi, %esi
	xorl	%r8d, %r8d
	xorl	%r9d, %r9d
	xorl	%r10d, %r10d
	movq	64(%rsp), %rdi
	xorl	%r15d, %r15d
	movq	88(%rsp), %rbp
	movq	72(%rsp), %rbx
	jmp	.LBBfbb66151_75
.LBBfbb66151_153:
	cmpb	$0, 160(%rsp)
	movb	$8, %al
	movq	%rax, 48(%rsp)
	je	.LBBfbb66151_157
	cmpq	$0, 184(%rsp)
	je	.LBBfbb66151_157
	movq	168(%rsp), %rdi
	jmp	.LBBfbb66151_156
.LBBfbb66151_159:
	movb	$12, %cl
.LBBfbb66151_160:
	xorl	%r9d, %r9d
	movq	$0, 32(%rsp)
.LBBfbb66151_161:
	movq	$0, 48(%rsp)
	xorl	%r12d, %r12d
	xorl	%r11d, %r11d
	xorl	%ebp, %ebp
	xorl	%r15d, %r15d
	movq	%r13, %rdi
	jmp	.LBBfbb66151_256
.LBBfbb66151_162:
	xorl	%eax, %eax
	jmp	.LBBfbb66151_168
.LBBfbb66151_163:
	movl	%ecx, %edx
	andl	$67108862, %edx
	leaq	104(%r14), %rsi
	pxor	%xmm0, %xmm0
	xorl	%eax, %eax
	pxor	%xmm2, %xmm2
	pxor	%xmm1, %xmm1
	pxor	%xmm3, %xmm3
.LBBfbb66151_164:
	movdqu	-64(%rsi), %xmm4
	pmaxub	%xmm0, %xmm4
	movdqu	-48(%rsi), %xmm5
	pmaxub	%xmm2, %xmm5
	movdqu	-32(%rsi), %xmm0
	pmaxub	%xmm1, %xmm0
	movdqu	-16(%rsi), %xmm1
	pmaxub	%xmm3, %xmm1
	movdqu	48(%rsi), %xmm3
	pmaxub	%xmm1, %xmm3
	movdqu	32(%rsi), %xmm1
	pmaxub	%xmm0, %xmm1
	movdqu	(%rsi), %xmm0
	pmaxub	%xmm4, %xmm0
	movdqu	16(%rsi), %xmm2
	pmaxub	%xmm5, %xmm2
	addq	$2, %rax
	subq	$-128, %rsi
	cmpq	%rax, %rdx
	jne	.LBBfbb66151_164
	testb	$1, %cl
	je	.LBBfbb66151_167
.LBBfbb66151_166:
	movdqa	%xmm3, %xmm4
	movdqa	%xmm1, %xmm3
	movdqa	%xmm2, %xmm1
	movdqa	%xmm0, %xmm2
	shlq	$6, %rax
	movdqu	(%rbx,%rax), %xmm0
	pmaxub	%xmm2, %xmm0
	movdqu	16(%rbx,%rax), %xmm2
	pmaxub	%xmm1, %xmm2
	movdqu	32(%rbx,%rax), %xmm1
	pmaxub	%xmm3, %xmm1
	movdqu	48(%rbx,%rax), %xmm3
	pmaxub	%xmm4, %xmm3
.LBBfbb66151_167:
	pmaxub	%xmm3, %xmm2
	pmaxub	%xmm1, %xmm0
	pmaxub	%xmm2, %xmm0
	pcmpeqd	%xmm1, %xmm1
	pxor	%xmm0, %xmm1
	movdqa	%xmm1, %xmm0
	psrlw	$8, %xmm0
	pminub	%xmm1, %xmm0
	phminposuw	%xmm0, %xmm0
	movd	%xmm0, %eax
	notb	%al
.LBBfbb66151_168:
	cmpb	$5, %bpl
	jbe	.LBBfbb66151_170
	xorl	%edi, %edi
	jmp	.LBBfbb66151_244
.LBBfbb66151_170:
	movq	%r13, %rcx
	movl	%ecx, %edi
	andl	$-64, %edi
	andl	$63, %ecx
	leaq	(%r14,%rdi), %rdx
	addq	$40, %rdx
	cmpl	$4, %ecx
	jae	.LBBfbb66151_212
	xorl	%edi, %edi
	xorl	%esi, %esi
	jmp	.LBBfbb66151_243
.LBBfbb66151_172:
	andb	$31, %al
	movl	$1, %ebx
	movl	%eax, %ecx
	shlq	%cl, %rbx
.LBBfbb66151_173:
	addq	$-40, %rdx
	movq	24(%rsp), %rax
	leal	-1(%rax), %ecx
	movl	$1, %esi
	movl	%ecx, 116(%rsp)
	shlq	%cl, %rsi
	movq	%rsi, 8(%rsp)
	subq	%rsi, %rdx
	movq	%rdx, 32(%rsp)
	jb	.LBBfbb66151_175
	leaq	(,%rbx,4), %rax
	cmpq	%rax, 32(%rsp)
	jae	.LBBfbb66151_178
.LBBfbb66151_175:
	xorl	%ecx, %ecx
.LBBfbb66151_176:
	movq	$0, 24(%rsp)
.LBBfbb66151_177:
	movq	$0, 32(%rsp)
	xorl	%edx, %edx
	xorl	%ebx, %ebx
	xorl	%r14d, %r14d
	movq	$0, 8(%rsp)
	xorl	%r13d, %r13d
	xorl	%r12d, %r12d
	xorl	%r11d, %r11d
	xorl	%esi, %esi
	xorl	%ebp, %ebp
	xorl	%r8d, %r8d
	xorl	%r15d, %r15d
	xorl	%r9d, %r9d
	xorl	%r10d, %r10d
	movq	64(%rsp), %rdi
	xorl	%eax, %eax
	jmp	.LBBfbb66151_75
.LBBfbb66151_178:
	movq	80(%rsp), %rax
	addq	$40, %rax
	movq	%rax, 120(%rsp)
	pxor	%xmm0, %xmm0
	movdqa	%xmm0, 352(%rsp)
	movq	$0, 368(%rsp)
	movdqu	%xmm0, 152(%rsp)
	movdqu	%xmm0, 168(%rsp)
	movdqu	%xmm0, 184(%rsp)
	movdqu	%xmm0, 200(%rsp)
	movdqu	%xmm0, 216(%rsp)
	movdqu	%xmm0, 232(%rsp)
	movdqu	%xmm0, 248(%rsp)
	movdqu	%xmm0, 264(%rsp)
	movdqa	%xmm0, 432(%rsp)
	movdqa	%xmm0, 448(%rsp)
	movdqa	%xmm0, 464(%rsp)
	movdqa	%xmm0, 480(%rsp)
	movdqa	%xmm0, 496(%rsp)
	movdqa	%xmm0, 512(%rsp)
	movdqa	%xmm0, 528(%rsp)
	movdqa	%xmm0, 544(%rsp)
	movq	$0, 560(%rsp)
	movq	$0, 144(%rsp)
	testq	%rbx, %rbx
	je	.LBBfbb66151_214
	movq	8(%rsp), %rax
	movq	120(%rsp), %rcx
	leaq	(%rcx,%rax), %r14
	movq	280(%rsp), %rax
	decl	%eax
	andl	$67108863, %eax
	movl	%eax, 400(%rsp)
	movq	$0, 336(%rsp)
	xorl	%ebp, %ebp
.LBBfbb66151_180:
	testb	$1, %r12b
	je	.LBBfbb66151_184
	cmpq	$4, 32(%rsp)
	jb	.LBBfbb66151_218
	addq	$-4, 32(%rsp)
	movl	(%r14), %eax
	addq	$4, %r14
	testl	%eax, %eax
	je	.LBBfbb66151_188
	movl	%eax, %r15d
	jmp	.LBBfbb66151_190
.LBBfbb66151_184:
	addq	$4, %r14
.LBBfbb66151_185:
	cmpq	$4, 32(%rsp)
	jb	.LBBfbb66151_218
	movl	-4(%r14), %eax
	testl	%eax, %eax
	jne	.LBBfbb66151_189
	movq	%rbp, %rax
	incq	%rax
	addq	$4, %r14
	addq	$-4, 32(%rsp)
	movq	%rax, %rbp
	cmpq	%rbx, %rax
	jb	.LBBfbb66151_185
	jmp	.LBBfbb66151_208
.LBBfbb66151_188:
	movb	$9, %al
	movq	%rax, 48(%rsp)
	movb	$1, 304(%rsp)
	jmp	.LBBfbb66151_206
.LBBfbb66151_189:
	movl	%eax, %r15d
	addq	$-4, 32(%rsp)
.LBBfbb66151_190:
	movl	%r15d, %eax
	shrl	$26, %eax
	movl	%eax, 384(%rsp)
	movb	$9, %al
	movq	%rax, 48(%rsp)
	movb	$1, 304(%rsp)
	je	.LBBfbb66151_206
	andl	400(%rsp), %r15d
	cmpb	$1, 144(%rsp)
	jne	.LBBfbb66151_205
	cmpb	$0, 176(%rsp)
	je	.LBBfbb66151_195
	movq	192(%rsp), %rcx
	cmpq	$256, %rcx
	movl	$256, %eax
	cmovbq	%rcx, %rax
	testq	%rcx, %rcx
	je	.LBBfbb66151_200
	movq	184(%rsp), %rdx
	jmp	.LBBfbb66151_196
.LBBfbb66151_195:
	movl	$8, %eax
	leaq	180(%rsp), %rdx
.LBBfbb66151_196:
	movzbl	160(%rsp), %ecx
	movl	%r15d, %esi
	shrl	%cl, %esi
	movq	$-1, %rdi
	shlq	%cl, %rdi
	orl	$1, %esi
	notq	%rdi
	movl	%r15d, %ecx
.LBBfbb66151_197:
	andq	%rdi, %rcx
	movl	(%rdx,%rcx,4), %r8d
	testl	%r8d, %r8d
	je	.LBBfbb66151_201
	movl	%r8d, %r9d
	andl	$67108863, %r9d
	cmpl	%r15d, %r9d
	je	.LBBfbb66151_201
	addq	%rsi, %rcx
	decq	%rax
	jne	.LBBfbb66151_197
.LBBfbb66151_200:
	leaq	152(%rsp), %rdi
	leaq	248(%rsp), %rsi
	movl	%r15d, %edx
	callq	hll_coupons.aux_map_builder.has_mark.8a2f8b2564a2651f
	jmp	.LBBfbb66151_202
.LBBfbb66151_201:
	testl	%r8d, %r8d
	setne	%dl
	xorl	%eax, %eax
.LBBfbb66151_202:
	testb	%al, %al
	je	.LBBfbb66151_204
	movl	%edx, %eax
	movq	%rax, 48(%rsp)
	jmp	.LBBfbb66151_206
.LBBfbb66151_204:
	testb	$1, %dl
	jne	.LBBfbb66151_206
.LBBfbb66151_205:
	movzbl	384(%rsp), %ecx
	leaq	144(%rsp), %rdi
	movq	328(%rsp), %rsi
	movl	%r15d, %edx
	callq	hll_registers.exception_map.add_exception.8a2f8b2564a2651f
	movb	%al, 304(%rsp)
	movq	%rdx, 48(%rsp)
.LBBfbb66151_206:
	cmpb	$0, 304(%rsp)
	jne	.LBBfbb66151_295
	incq	336(%rsp)
	movq	%rbp, %rax
	incq	%rax
	movq	%rax, %rbp
	cmpq	%rbx, %rax
	jb	.LBBfbb66151_180
.LBBfbb66151_208:
	movzbl	144(%rsp), %ecx
	movq	288(%rsp), %rax
	cmpq	%rax, 336(%rsp)
	jne	.LBBfbb66151_266
	movzbl	248(%rsp), %eax
	jmp	.LBBfbb66151_216
.LBBfbb66151_210:
	movq	48(%rsp), %rdi
	movq	%rbx, %rdx
	callq	memmove@PLT
.LBBfbb66151_211:
	movl	$3, %eax
	movq	%rax, 32(%rsp)
	movq	$0, 16(%rsp)
	xorl	%ecx, %ecx
	movq	%r13, %rdi
	jmp	.LBBfbb66151_235
.LBBfbb66151_212:
	cmpl	$32, %ecx
	jae	.LBBfbb66151_236
	xorl	%esi, %esi
	xorl	%edi, %edi
	jmp	.LBBfbb66151_240
.LBBfbb66151_259:
	movq	$0, 48(%rsp)
.LBBfbb66151_145:
	movq	%r15, %rdi
.LBBfbb66151_156:
	callq	rattle_dealloc@PLT
.LBBfbb66151_157:
	movq	$0, 24(%rsp)
	movq	$0, 32(%rsp)
	xorl	%edx, %edx
	xorl	%ebx, %ebx
	xorl	%r14d, %r14d
	movq	$0, 8(%rsp)
	xorl	%r13d, %r13d
	xorl	%r12d, %r12d
	xorl	%r11d, %r11d
	xorl	%esi, %esi
	xorl	%ebp, %ebp
	xorl	%r8d, %r8d
	xorl	%r15d, %r15d
	xorl	%r9d, %r9d
	xorl	%r10d, %r10d
	movq	64(%rsp), %rdi
	movb	$1, %al
	movq	%rax, 16(%rsp)
.LBBfbb66151_158:
	xorl	%eax, %eax
	movq	48(%rsp), %rcx
	jmp	.LBBfbb66151_75
.LBBfbb66151_214:
	movb	$8, %al
	movq	%rax, 48(%rsp)
	cmpq	$0, 288(%rsp)
	jne	.LBBfbb66151_311
	xorl	%eax, %eax
	xorl	%ecx, %ecx
.LBBfbb66151_216:
	movq	%rcx, 432(%rsp)
	leaq	152(%rsp), %rcx
	movups	(%rcx), %xmm0
	movups	16(%rcx), %xmm1
	movups	32(%rcx), %xmm2
	movdqu	48(%rcx), %xmm3
	movups	%xmm0, 440(%rsp)
	movups	%xmm1, 456(%rsp)
	movups	%xmm2, 472(%rsp)
	movdqu	%xmm3, 488(%rsp)
	movdqu	216(%rsp), %xmm0
	movdqu	232(%rsp), %xmm1
	movdqu	256(%rsp), %xmm2
	movdqu	%xmm0, 504(%rsp)
	movdqu	%xmm1, 520(%rsp)
	movq	%rax, 536(%rsp)
	movdqa	%xmm2, 544(%rsp)
	movq	272(%rsp), %rax
	movq	%rax, 560(%rsp)
	leaq	352(%rsp), %rdi
	leaq	432(%rsp), %rsi
	callq	hll_registers.exception_map.built.8a2f8b2564a2651f
	cmpb	$0, 352(%rsp)
	je	.LBBfbb66151_279
	movzbl	353(%rsp), %ecx
	jmp	.LBBfbb66151_176
.LBBfbb66151_218:
	cmpb	$1, 144(%rsp)
	jne	.LBBfbb66151_260
	movq	224(%rsp), %r14
	movq	232(%rsp), %rbx
	movq	240(%rsp), %r13
	movzbl	248(%rsp), %eax
	movb	%al, 24(%rsp)
	movq	256(%rsp), %rax
	movq	%rax, 8(%rsp)
	movq	272(%rsp), %rax
	movq	%rax, 32(%rsp)
	cmpb	$0, 176(%rsp)
	je	.LBBfbb66151_222
	cmpq	$0, 200(%rsp)
	je	.LBBfbb66151_222
	movq	184(%rsp), %rdi
	callq	rattle_dealloc@PLT
.LBBfbb66151_222:
	testq	%rbx, %rbx
	je	.LBBfbb66151_261
	leaq	64(%r14), %r12
	jmp	.LBBfbb66151_225
.LBBfbb66151_224:
	addq	$72, %r12
	decq	%rbx
	je	.LBBfbb66151_261
.LBBfbb66151_225:
	movq	-16(%r12), %r15
	movq	(%r12), %rbp
	cmpq	$0, -24(%r12)
	je	.LBBfbb66151_227
	movq	-40(%r12), %rdi
	callq	rattle_dealloc@PLT
.LBBfbb66151_227:
	testq	%rbp, %rbp
	je	.LBBfbb66151_224
	movq	%r15, %rdi
	callq	rattle_dealloc@PLT
	jmp	.LBBfbb66151_224
.LBBfbb66151_229:
	movq	8(%rsp), %rdx
	andl	$-8, %edx
	movl	$40, %esi
	xorl	%ecx, %ecx
.LBBfbb66151_230:
	movzwl	(%r14,%rsi), %r8d
	movzbl	2(%r14,%rsi), %r9d
	movq	48(%rsp), %r10
	movb	%r9b, -38(%r10,%rsi)
	movw	%r8w, -40(%r10,%rsi)
	movzwl	3(%r14,%rsi), %r8d
	movzbl	5(%r14,%rsi), %r9d
	movb	%r9b, -35(%r10,%rsi)
	movw	%r8w, -37(%r10,%rsi)
	movzwl	6(%r14,%rsi), %r8d
	movzbl	8(%r14,%rsi), %r9d
	movb	%r9b, -32(%r10,%rsi)
	movw	%r8w, -34(%r10,%rsi)
	movzwl	9(%r14,%rsi), %r8d
	movzbl	11(%r14,%rsi), %r9d
	movb	%r9b, -29(%r10,%rsi)
	movw	%r8w, -31(%r10,%rsi)
	movzwl	12(%r14,%rsi), %r8d
	movzbl	14(%r14,%rsi), %r9d
	movb	%r9b, -26(%r10,%rsi)
	movw	%r8w, -28(%r10,%rsi)
	movzwl	15(%r14,%rsi), %r8d
	movzbl	17(%r14,%rsi), %r9d
	movb	%r9b, -23(%r10,%rsi)
	movw	%r8w, -25(%r10,%rsi)
	movzwl	18(%r14,%rsi), %r8d
	movzbl	20(%r14,%rsi), %r9d
	movb	%r9b, -20(%r10,%rsi)
	movw	%r8w, -22(%r10,%rsi)
	movzwl	21(%r14,%rsi), %r8d
	movzbl	23(%r14,%rsi), %edi
	movb	%dil, -17(%r10,%rsi)
	movw	%r8w, -19(%r10,%rsi)
	addq	$8, %rcx
	addq	$24, %rsi
	cmpq	%rcx, %rdx
	jne	.LBBfbb66151_230
	testq	%rax, %rax
	je	.LBBfbb66151_211
.LBBfbb66151_232:
	leaq	(%rcx,%rcx,2), %rdx
	leaq	(%r14,%rdx), %rsi
	addq	$40, %rsi
	addq	48(%rsp), %rdx
	leaq	(%rax,%rax,2), %rax
	xorl	%edi, %edi
.LBBfbb66151_233:
	movzwl	(%rsi,%rdi), %ecx
	movzbl	2(%rsi,%rdi), %r8d
	movb	%r8b, 2(%rdx,%rdi)
	movw	%cx, (%rdx,%rdi)
	addq	$3, %rdi
	movl	$3, %ecx
	movq	%rcx, 32(%rsp)
	cmpq	%rdi, %rax
	jne	.LBBfbb66151_233
	xorl	%ecx, %ecx
	movq	%r13, %rdi
	movq	$0, 16(%rsp)
.LBBfbb66151_235:
	movq	%r15, %r9
	movq	8(%rsp), %r13
	jmp	.LBBfbb66151_294
.LBBfbb66151_236:
	movl	%r13d, %esi
	andl	$32, %esi
	addq	%r14, %rdi
	addq	$56, %rdi
	pxor	%xmm0, %xmm0
	xorl	%r8d, %r8d
	pxor	%xmm1, %xmm1
.LBBfbb66151_237:
	movdqu	-16(%rdi,%r8), %xmm2
	pmaxub	%xmm2, %xmm0
	movdqu	(%rdi,%r8), %xmm2
	pmaxub	%xmm2, %xmm1
	addq	$32, %r8
	cmpq	%r8, %rsi
	jne	.LBBfbb66151_237
	pmaxub	%xmm1, %xmm0
	pcmpeqd	%xmm1, %xmm1
	pxor	%xmm0, %xmm1
	movdqa	%xmm1, %xmm0
	psrlw	$8, %xmm0
	pminub	%xmm1, %xmm0
	phminposuw	%xmm0, %xmm0
	movd	%xmm0, %edi
	notb	%dil
	cmpl	%esi, %ecx
	je	.LBBfbb66151_244
	testb	$28, %r13b
	je	.LBBfbb66151_243
.LBBfbb66151_240:
	movq	%rsi, %r8
	movl	%r13d, %esi
	andl	$60, %esi
	movzbl	%dil, %edi
	movd	%edi, %xmm0
	punpcklbw	%xmm0, %xmm0
	pshuflw	$0, %xmm0, %xmm0
.LBBfbb66151_241:
	movd	(%rdx,%r8), %xmm1
	pmaxub	%xmm1, %xmm0
	addq	$4, %r8
	cmpq	%r8, %rsi
	jne	.LBBfbb66151_241
	movdqa	%xmm0, %xmm1
	psrld	$16, %xmm1
	pmaxub	%xmm0, %xmm1
	movdqa	%xmm1, %xmm0
	psrlw	$8, %xmm0
	pmaxub	%xmm1, %xmm0
	movd	%xmm0, %edi
	cmpl	%esi, %ecx
	je	.LBBfbb66151_244
.LBBfbb66151_243:
	movzbl	(%rdx,%rsi), %r8d
	movzbl	%dil, %edi
	cmpb	%dil, %r8b
	cmoval	%r8d, %edi
	incq	%rsi
	cmpq	%rsi, %rcx
	jne	.LBBfbb66151_243
.LBBfbb66151_244:
	movzbl	%al, %eax
	movzbl	%dil, %ecx
	cmpb	%cl, %al
	cmoval	%eax, %ecx
	cmpb	$63, %cl
	ja	.LBBfbb66151_252
	movq	8(%r14), %r12
	movq	16(%r14), %rcx
	movq	%rcx, 72(%rsp)
	movq	24(%r14), %rax
	movq	%rax, 88(%rsp)
	movl	$1, %esi
	movq	%r13, %rdi
	callq	rattle_alloc@PLT
	movq	%rdx, 48(%rsp)
	testb	$1, %al
	je	.LBBfbb66151_253
	movq	96(%rsp), %rax
	andb	$1, %al
	movq	%rax, 96(%rsp)
	movq	48(%rsp), %rax
	subq	%rbx, %rax
	cmpq	%r13, %rax
	jae	.LBBfbb66151_257
	cmpb	$1, %bpl
	jbe	.LBBfbb66151_249
	movq	48(%rsp), %rax
	subq	%r14, %rax
	addq	$-40, %rax
	cmpq	$32, %rax
	jae	.LBBfbb66151_287
.LBBfbb66151_249:
	cmpb	$2, %bpl
	jae	.LBBfbb66151_277
	xorl	%eax, %eax
.LBBfbb66151_251:
	movzbl	(%rbx,%rax), %ecx
	movq	48(%rsp), %rdx
	movb	%cl, (%rdx,%rax)
	incq	%rax
	movl	$4, %ecx
	movq	%rcx, 32(%rsp)
	cmpq	%rax, %r13
	jne	.LBBfbb66151_251
	jmp	.LBBfbb66151_292
.LBBfbb66151_252:
	movb	$10, %cl
	jmp	.LBBfbb66151_254
.LBBfbb66151_253:
	movb	$12, %cl
.LBBfbb66151_254:
	xorl	%r9d, %r9d
	movq	$0, 32(%rsp)
.LBBfbb66151_255:
	movq	$0, 48(%rsp)
	xorl	%r12d, %r12d
	xorl	%r11d, %r11d
	xorl	%ebp, %ebp
	movq	%r15, %rdi
	xorl	%r15d, %r15d
.LBBfbb66151_256:
	xorl	%r13d, %r13d
	movb	$1, %al
	movq	%rax, 16(%rsp)
	jmp	.LBBfbb66151_48
.LBBfbb66151_257:
	movq	48(%rsp), %rdi
	movq	%rbx, %rsi
	movq	%r13, %rdx
	callq	memmove@PLT
	movl	$4, %eax
	movq	%rax, 32(%rsp)
	movq	$0, 16(%rsp)
	xorl	%ecx, %ecx
	movq	%r15, %rdi
	jmp	.LBBfbb66151_293
.LBBfbb66151_260:
	movq	$0, 48(%rsp)
	jmp	.LBBfbb66151_311
.LBBfbb66151_261:
	testq	%r13, %r13
	je	.LBBfbb66151_263
	movq	%r14, %rdi
	callq	rattle_dealloc@PLT
.LBBfbb66151_263:
	movq	$0, 48(%rsp)
	cmpb	$1, 24(%rsp)
	jne	.LBBfbb66151_311
	cmpq	$0, 32(%rsp)
	je	.LBBfbb66151_311
	movq	8(%rsp), %rdi
	callq	rattle_dealloc@PLT
	movq	$0, 48(%rsp)
	jmp	.LBBfbb66151_311
.LBBfbb66151_266:
	movb	$8, %al
	movq	%rax, 48(%rsp)
	cmpl	$1, %ecx
	jne	.LBBfbb66151_311
	movq	224(%rsp), %r14
	movq	232(%rsp), %rbx
	movq	240(%rsp), %r13
	movzbl	248(%rsp), %eax
	movb	%al, 24(%rsp)
	movq	256(%rsp), %rax
	movq	%rax, 8(%rsp)
	movq	272(%rsp), %rax
	movq	%rax, 32(%rsp)
	cmpb	$0, 176(%rsp)
	je	.LBBfbb66151_270
	cmpq	$0, 200(%rsp)
	je	.LBBfbb66151_270
	movq	184(%rsp), %rdi
	callq	rattle_dealloc@PLT
.LBBfbb66151_270:
	testq	%rbx, %rbx
	je	.LBBfbb66151_306
	leaq	64(%r14), %r15
	jmp	.LBBfbb66151_273
.LBBfbb66151_272:
	addq	$72, %r15
	decq	%rbx
	je	.LBBfbb66151_306
.LBBfbb66151_273:
	movq	-16(%r15), %r12
	movq	(%r15), %rbp
	cmpq	$0, -24(%r15)
	je	.LBBfbb66151_275
	movq	-40(%r15), %rdi
	callq	rattle_dealloc@PLT
.LBBfbb66151_275:
	testq	%rbp, %rbp
	je	.LBBfbb66151_272
	movq	%r12, %rdi
	callq	rattle_dealloc@PLT
	jmp	.LBBfbb66151_272
.LBBfbb66151_277:
	movl	%r13d, %eax
	andl	$-4, %eax
	xorl	%edx, %edx
.LBBfbb66151_278:
	movzbl	40(%r14,%rdx), %esi
	movq	48(%rsp), %rdi
	movb	%sil, (%rdi,%rdx)
	movzbl	41(%r14,%rdx), %esi
	movb	%sil, 1(%rdi,%rdx)
	movzbl	42(%r14,%rdx), %esi
	movb	%sil, 2(%rdi,%rdx)
	movzbl	43(%r14,%rdx), %ecx
	movb	%cl, 3(%rdi,%rdx)
	addq	$4, %rdx
	movl	$4, %ecx
	movq	%rcx, 32(%rsp)
	cmpq	%rdx, %rax
	jne	.LBBfbb66151_278
	jmp	.LBBfbb66151_292
.LBBfbb66151_279:
	movzbl	360(%rsp), %eax
	movq	%rax, 128(%rsp)
	movq	368(%rsp), %rax
	movq	%rax, 104(%rsp)
	xorl	%r14d, %r14d
	movq	8(%rsp), %rbx
	shrq	$6, %rbx
	movl	$0, 140(%rsp)
	movl	$0, 112(%rsp)
	je	.LBBfbb66151_284
	movl	$0, 112(%rsp)
	movq	120(%rsp), %r12
	movl	$0, 140(%rsp)
	jmp	.LBBfbb66151_282
.LBBfbb66151_281:
	pxor	%xmm0, %xmm0
	movdqa	48(%rsp), %xmm4
	pcmpeqb	%xmm0, %xmm4
	movdqa	.LCPIfbb66151_1(%rip), %xmm1
	pand	%xmm1, %xmm4
	movdqa	32(%rsp), %xmm2
	pcmpeqb	%xmm0, %xmm2
	pand	%xmm1, %xmm2
	movdqa	576(%rsp), %xmm5
	movdqa	%xmm5, %xmm1
	movdqa	.LCPIfbb66151_0(%rip), %xmm3
	pminub	%xmm3, %xmm1
	pcmpeqb	%xmm5, %xmm1
	psubb	%xmm1, %xmm4
	movdqa	384(%rsp), %xmm5
	movdqa	%xmm5, %xmm1
	pminub	%xmm3, %xmm1
	pcmpeqb	%xmm5, %xmm1
	psubb	%xmm1, %xmm2
	movdqa	400(%rsp), %xmm7
	pcmpeqb	%xmm0, %xmm7
	movdqa	304(%rsp), %xmm5
	pcmpeqb	%xmm0, %xmm5
	movdqa	336(%rsp), %xmm6
	movdqa	%xmm6, %xmm1
	pminub	%xmm3, %xmm1
	pcmpeqb	%xmm6, %xmm1
	psubb	%xmm1, %xmm4
	psubb	%xmm7, %xmm4
	movdqa	288(%rsp), %xmm1
	pminub	%xmm1, %xmm3
	pcmpeqb	%xmm1, %xmm3
	psubb	%xmm3, %xmm2
	psubb	%xmm5, %xmm2
	paddb	%xmm4, %xmm2
	pshufd	$238, %xmm2, %xmm1
	paddb	%xmm2, %xmm1
	psadbw	%xmm0, %xmm1
	pextrb	$0, %xmm1, %ecx
	addl	%eax, 140(%rsp)
	addl	%ecx, 112(%rsp)
	addq	$64, %r12
	decq	%rbx
	je	.LBBfbb66151_284
.LBBfbb66151_282:
	movdqa	.LCPIfbb66151_0(%rip), %xmm5
	movdqu	(%r12), %xmm2
	movdqu	16(%r12), %xmm0
	movdqu	32(%r12), %xmm3
	movdqu	48(%r12), %xmm1
	movdqa	%xmm2, %xmm6
	pand	%xmm5, %xmm6
	movdqa	%xmm0, %xmm4
	pand	%xmm5, %xmm4
	movdqa	%xmm3, %xmm8
	pand	%xmm5, %xmm8
	movdqa	%xmm1, %xmm7
	pand	%xmm5, %xmm7
	movdqa	%xmm0, 384(%rsp)
	psrlw	$4, %xmm0
	pand	%xmm5, %xmm0
	movdqa	%xmm1, 288(%rsp)
	psrlw	$4, %xmm1
	pand	%xmm5, %xmm1
	movdqa	%xmm2, 576(%rsp)
	psrlw	$4, %xmm2
	pand	%xmm5, %xmm2
	movdqa	%xmm3, 336(%rsp)
	psrlw	$4, %xmm3
	pand	%xmm5, %xmm3
	movdqa	%xmm8, 400(%rsp)
	pmaxub	%xmm8, %xmm3
	movdqa	%xmm6, 48(%rsp)
	pmaxub	%xmm6, %xmm2
	pmaxub	%xmm3, %xmm2
	movdqa	%xmm7, 304(%rsp)
	pmaxub	%xmm7, %xmm1
	movdqa	%xmm4, 32(%rsp)
	pmaxub	%xmm4, %xmm0
	pmaxub	%xmm1, %xmm0
	pmaxub	%xmm2, %xmm0
	pcmpeqb	%xmm5, %xmm0
	pmovmskb	%xmm0, %ecx
	movl	$0, %eax
	testl	%ecx, %ecx
	je	.LBBfbb66151_281
	movq	%r12, %rdi
	callq	hll_kernels.nibbles.some_mark_nibbles_in
	movzbl	%al, %eax
	jmp	.LBBfbb66151_281
.LBBfbb66151_284:
	cmpb	$5, 116(%rsp)
	ja	.LBBfbb66151_323
	movq	8(%rsp), %rax
	movq	%rax, %rsi
	andq	$-64, %rsi
	andl	$63, %eax
	movq	120(%rsp), %rcx
	addq	%rsi, %rcx
	cmpl	$8, %eax
	jae	.LBBfbb66151_312
	xorl	%edx, %edx
	xorl	%edi, %edi
	jmp	.LBBfbb66151_315
.LBBfbb66151_287:
	movl	%r13d, %eax
	cmpb	$5, %bpl
	jae	.LBBfbb66151_290
	andl	$252, %eax
	xorl	%edx, %edx
.LBBfbb66151_289:
	movl	(%rbx,%rdx), %ecx
	movq	48(%rsp), %rsi
	movl	%ecx, (%rsi,%rdx)
	addq	$4, %rdx
	movl	$4, %ecx
	movq	%rcx, 32(%rsp)
	cmpq	%rdx, %rax
	jne	.LBBfbb66151_289
	jmp	.LBBfbb66151_292
.LBBfbb66151_290:
	andl	$-32, %eax
	xorl	%edx, %edx
.LBBfbb66151_291:
	movdqu	40(%r14,%rdx), %xmm0
	movdqu	56(%r14,%rdx), %xmm1
	movq	48(%rsp), %rcx
	movdqu	%xmm0, (%rcx,%rdx)
	movdqu	%xmm1, 16(%rcx,%rdx)
	addq	$32, %rdx
	movl	$4, %ecx
	movq	%rcx, 32(%rsp)
	cmpq	%rdx, %rax
	jne	.LBBfbb66151_291
.LBBfbb66151_292:
	xorl	%ecx, %ecx
	movq	%r15, %rdi
	movq	$0, 16(%rsp)
.LBBfbb66151_293:
	movq	%rbp, %r9
	movq	88(%rsp), %rbp
.LBBfbb66151_294:
	movq	96(%rsp), %r15
	movq	72(%rsp), %r11
	jmp	.LBBfbb66151_48
.LBBfbb66151_295:
	cmpb	$1, 144(%rsp)
	jne	.LBBfbb66151_311
	movq	224(%rsp), %r14
	movq	232(%rsp), %rbx
	movq	240(%rsp), %r13
	movzbl	248(%rsp), %eax
	movb	%al, 24(%rsp)
	movq	256(%rsp), %rax
	movq	%rax, 8(%rsp)
	movq	272(%rsp), %rax
	movq	%rax, 32(%rsp)
	cmpb	$0, 176(%rsp)
	je	.LBBfbb66151_299
	cmpq	$0, 200(%rsp)
	je	.LBBfbb66151_299
	movq	184(%rsp), %rdi
	callq	rattle_dealloc@PLT
.LBBfbb66151_299:
	testq	%rbx, %rbx
	je	.LBBfbb66151_306
	leaq	64(%r14), %r15
	jmp	.LBBfbb66151_302
.LBBfbb66151_301:
	addq	$72, %r15
	decq	%rbx
	je	.LBBfbb66151_306
.LBBfbb66151_302:
	movq	-16(%r15), %r12
	movq	(%r15), %rbp
	cmpq	$0, -24(%r15)
	je	.LBBfbb66151_304
	movq	-40(%r15), %rdi
	callq	rattle_dealloc@PLT
.LBBfbb66151_304:
	testq	%rbp, %rbp
	je	.LBBfbb66151_301
	movq	%r12, %rdi
	callq	rattle_dealloc@PLT
	jmp	.LBBfbb66151_301
.LBBfbb66151_306:
	testq	%r13, %r13
	je	.LBBfbb66151_308
	movq	%r14, %rdi
	callq	rattle_dealloc@PLT
.LBBfbb66151_308:
	cmpb	$1, 24(%rsp)
	jne	.LBBfbb66151_311
	cmpq	$0, 32(%rsp)
	je	.LBBfbb66151_311
	movq	8(%rsp), %rdi
	callq	rattle_dealloc@PLT
.LBBfbb66151_311:
	movq	$0, 24(%rsp)
	movq	$0, 32(%rsp)
	xorl	%edx, %edx
	xorl	%ebx, %ebx
	xorl	%r14d, %r14d
	movq	$0, 8(%rsp)
	xorl	%r13d, %r13d
	xorl	%r12d, %r12d
	xorl	%r11d, %r11d
	xorl	%esi, %esi
	xorl	%ebp, %ebp
	xorl	%r8d, %r8d
	xorl	%r15d, %r15d
	xorl	%r9d, %r9d
	xorl	%r10d, %r10d
	movq	64(%rsp), %rdi
	jmp	.LBBfbb66151_158
.LBBfbb66151_312:
	movq	8(%rsp), %rdi
	andl	$56, %edi
	movq	80(%rsp), %rdx
	addq	%rsi, %rdx
	addq	$44, %rdx
	pxor	%xmm0, %xmm0
	xorl	%r8d, %r8d
	pxor	%xmm1, %xmm1
	pxor	%xmm2, %xmm2
.LBBfbb66151_313:
	movd	-4(%rdx,%r8), %xmm4
	movdqa	.LCPIfbb66151_2(%rip), %xmm3
	movdqa	.LCPIfbb66151_4(%rip), %xmm5
	movdqa	%xmm4, %xmm6
	pmaxub	%xmm5, %xmm6
	pcmpeqb	%xmm4, %xmm6
	pand	%xmm3, %xmm4
	pcmpeqb	%xmm0, %xmm4
	pmovzxbd	%xmm4, %xmm4
	movdqa	.LCPIfbb66151_3(%rip), %xmm7
	pand	%xmm7, %xmm4
	paddd	%xmm1, %xmm4
	movd	(%rdx,%r8), %xmm8
	pand	%xmm8, %xmm3
	pcmpeqb	%xmm0, %xmm3
	pmovzxbd	%xmm3, %xmm3
	pand	%xmm7, %xmm3
	paddd	%xmm2, %xmm3
	pcmpeqd	%xmm2, %xmm2
	pxor	%xmm2, %xmm6
	pmovzxbd	%xmm6, %xmm1
	pand	%xmm7, %xmm1
	paddd	%xmm4, %xmm1
	pmaxub	%xmm8, %xmm5
	pcmpeqb	%xmm8, %xmm5
	pxor	%xmm2, %xmm5
	pmovzxbd	%xmm5, %xmm2
	pand	%xmm7, %xmm2
	paddd	%xmm3, %xmm2
	addq	$8, %r8
	cmpq	%r8, %rdi
	jne	.LBBfbb66151_313
	paddd	%xmm1, %xmm2
	pshufd	$238, %xmm2, %xmm0
	paddd	%xmm2, %xmm0
	pshufd	$85, %xmm0, %xmm1
	paddd	%xmm0, %xmm1
	movd	%xmm1, %edx
	cmpl	%edi, %eax
	je	.LBBfbb66151_316
.LBBfbb66151_315:
	movzbl	(%rcx,%rdi), %r8d
	movl	%r8d, %r9d
	andb	$15, %r9b
	xorl	%r10d, %r10d
	cmpb	$16, %r8b
	setb	%r10b
	cmpb	$1, %r9b
	adcl	%r10d, %edx
	incq	%rdi
	cmpq	%rdi, %rax
	jne	.LBBfbb66151_315
.LBBfbb66151_316:
	cmpl	$8, %eax
	jae	.LBBfbb66151_318
	xorl	%r14d, %r14d
	xorl	%edi, %edi
	jmp	.LBBfbb66151_321
.LBBfbb66151_318:
	movq	8(%rsp), %rdi
	andl	$56, %edi
	movq	80(%rsp), %r8
	addq	%r8, %rsi
	addq	$44, %rsi
	pxor	%xmm0, %xmm0
	xorl	%r8d, %r8d
	pxor	%xmm1, %xmm1
.LBBfbb66151_319:
	movd	-4(%rsi,%r8), %xmm5
	movd	(%rsi,%r8), %xmm3
	movdqa	.LCPIfbb66151_2(%rip), %xmm2
	movdqa	.LCPIfbb66151_5(%rip), %xmm4
	movdqa	%xmm5, %xmm6
	pminub	%xmm4, %xmm6
	pcmpeqb	%xmm5, %xmm6
	pand	%xmm2, %xmm5
	pminub	%xmm3, %xmm4
	pcmpeqb	%xmm3, %xmm4
	pand	%xmm2, %xmm3
	pcmpeqb	%xmm2, %xmm5
	pmovzxbd	%xmm5, %xmm5
	movdqa	.LCPIfbb66151_3(%rip), %xmm7
	pand	%xmm7, %xmm5
	paddd	%xmm1, %xmm5
	pcmpeqb	%xmm2, %xmm3
	pmovzxbd	%xmm3, %xmm2
	pand	%xmm7, %xmm2
	paddd	%xmm0, %xmm2
	pcmpeqd	%xmm0, %xmm0
	pxor	%xmm0, %xmm6
	pmovzxbd	%xmm6, %xmm1
	pand	%xmm7, %xmm1
	paddd	%xmm5, %xmm1
	pxor	%xmm0, %xmm4
	pmovzxbd	%xmm4, %xmm0
	pand	%xmm7, %xmm0
	paddd	%xmm2, %xmm0
	addq	$8, %r8
	cmpq	%r8, %rdi
	jne	.LBBfbb66151_319
	paddd	%xmm1, %xmm0
	pshufd	$238, %xmm0, %xmm1
	paddd	%xmm0, %xmm1
	pshufd	$85, %xmm1, %xmm0
	paddd	%xmm1, %xmm0
	movd	%xmm0, %r14d
	cmpl	%edi, %eax
	je	.LBBfbb66151_322
.LBBfbb66151_321:
	movzbl	(%rcx,%rdi), %esi
	movl	%esi, %r8d
	notb	%r8b
	andb	$15, %r8b
	xorl	%r9d, %r9d
	cmpb	$-16, %sil
	setae	%r9b
	cmpb	$1, %r8b
	adcl	%r9d, %r14d
	incq	%rdi
	cmpq	%rdi, %rax
	jne	.LBBfbb66151_321
.LBBfbb66151_322:
	addl	%edx, 112(%rsp)
.LBBfbb66151_323:
	addl	140(%rsp), %r14d
	cmpl	$1, 128(%rsp)
	jne	.LBBfbb66151_325
	movq	104(%rsp), %rax
	movq	16(%rax), %rax
	jmp	.LBBfbb66151_326
.LBBfbb66151_325:
	xorl	%eax, %eax
.LBBfbb66151_326:
	cmpq	%r14, %rax
	jne	.LBBfbb66151_336
	movq	%r13, %rax
	shrq	$57, %rax
	cmpl	$25, %eax
	jae	.LBBfbb66151_331
.LBBfbb66151_328:
	cmpl	$1, 128(%rsp)
	jne	.LBBfbb66151_354
	movq	104(%rsp), %rax
	cmpb	$0, 24(%rax)
	je	.LBBfbb66151_342
	movq	104(%rsp), %rcx
	movq	32(%rcx), %rax
	movq	40(%rcx), %rcx
	jmp	.LBBfbb66151_343
.LBBfbb66151_331:
	shrq	$62, %r13
	jne	.LBBfbb66151_336
	movb	$63, %al
	subb	72(%rsp), %al
	xorl	%ecx, %ecx
.LBBfbb66151_333:
	cmpq	%rcx, 8(%rsp)
	je	.LBBfbb66151_328
	movq	120(%rsp), %rdx
	movzbl	(%rdx,%rcx), %edx
	movl	%edx, %esi
	andb	$15, %sil
	cmpb	%al, %sil
	ja	.LBBfbb66151_336
	shrb	$4, %dl
	incq	%rcx
	cmpb	%al, %dl
	jbe	.LBBfbb66151_333
.LBBfbb66151_336:
	cmpl	$1, 128(%rsp)
	jne	.LBBfbb66151_340
	movq	104(%rsp), %rdi
	movq	32(%rdi), %rbx
	movq	48(%rdi), %r14
	movzbl	24(%rdi), %ebp
	callq	rattle_dealloc@PLT
	testb	%bpl, %bpl
	je	.LBBfbb66151_341
	testq	%r14, %r14
	je	.LBBfbb66151_341
	movq	%rbx, %rdi
	callq	rattle_dealloc@PLT
.LBBfbb66151_340:
	movq	$0, 24(%rsp)
	movq	$0, 32(%rsp)
	xorl	%edx, %edx
	xorl	%ebx, %ebx
	xorl	%r14d, %r14d
	movq	$0, 8(%rsp)
	xorl	%r13d, %r13d
	xorl	%r12d, %r12d
	xorl	%r11d, %r11d
	xorl	%esi, %esi
	xorl	%ebp, %ebp
	xorl	%r8d, %r8d
	xorl	%r15d, %r15d
	xorl	%r9d, %r9d
	xorl	%r10d, %r10d
	movq	64(%rsp), %rdi
	xorl	%eax, %eax
	movb	$10, %cl
	jmp	.LBBfbb66151_75
.LBBfbb66151_341:
	movq	$0, 32(%rsp)
	xorl	%edx, %edx
	xorl	%ebx, %ebx
	xorl	%r14d, %r14d
	movq	$0, 8(%rsp)
	xorl	%r13d, %r13d
	xorl	%r12d, %r12d
	xorl	%r11d, %r11d
	xorl	%esi, %esi
	xorl	%ebp, %ebp
	xorl	%r8d, %r8d
	xorl	%r15d, %r15d
	xorl	%r9d, %r9d
	xorl	%r10d, %r10d
	movq	64(%rsp), %rdi
	xorl	%eax, %eax
	movq	$0, 24(%rsp)
	movb	$10, %cl
	jmp	.LBBfbb66151_75
.LBBfbb66151_342:
	movq	104(%rsp), %rax
	addq	$28, %rax
	movl	$8, %ecx
.LBBfbb66151_343:
	movq	72(%rsp), %rdx
	addl	$15, %edx
.LBBfbb66151_344:
	cmpq	$4, %rcx
	jae	.LBBfbb66151_349
.LBBfbb66151_345:
	testq	%rcx, %rcx
	je	.LBBfbb66151_354
	decq	%rcx
	movl	(%rax), %esi
	addq	$4, %rax
	testq	%rsi, %rsi
	je	.LBBfbb66151_345
	movl	%esi, %edi
	shrl	$26, %edi
	cmpb	%dil, %dl
	ja	.LBBfbb66151_336
	movl	%esi, %edi
	andl	$67108862, %edi
	shrl	%edi
	movq	120(%rsp), %r8
	movzbl	(%r8,%rdi), %edi
	movl	%edi, %r8d
	andb	$15, %r8b
	shrb	$4, %dil
	testb	$1, %sil
	movzbl	%r8b, %esi
	movzbl	%dil, %edi
	cmovel	%esi, %edi
	cmpb	$15, %dil
	je	.LBBfbb66151_344
	jmp	.LBBfbb66151_336
.LBBfbb66151_349:
	cmpl	$0, (%rax)
	jne	.LBBfbb66151_345
	cmpl	$0, 4(%rax)
	jne	.LBBfbb66151_345
	cmpl	$0, 8(%rax)
	jne	.LBBfbb66151_345
	cmpl	$0, 12(%rax)
	jne	.LBBfbb66151_345
	addq	$16, %rax
	addq	$-4, %rcx
	cmpq	$3, %rcx
	ja	.LBBfbb66151_349
	jmp	.LBBfbb66151_345
.LBBfbb66151_354:
	pxor	%xmm0, %xmm0
	movdqa	%xmm0, 144(%rsp)
	movdqa	%xmm0, 160(%rsp)
	movdqa	%xmm0, 176(%rsp)
	movq	$0, 192(%rsp)
	movq	128(%rsp), %rax
	movq	%rax, 432(%rsp)
	movq	104(%rsp), %rax
	movq	%rax, 440(%rsp)
	cmpl	$0, 112(%rsp)
	je	.LBBfbb66151_363
	cmpb	$63, 116(%rsp)
	je	.LBBfbb66151_366
	movl	$1, %esi
	movq	8(%rsp), %rdi
	callq	rattle_alloc@PLT
	testb	$1, %al
	je	.LBBfbb66151_366
	movq	%rdx, %rbx
	movq	%rdx, %rax
	subq	120(%rsp), %rax
	cmpq	8(%rsp), %rax
	jae	.LBBfbb66151_371
	movabsq	$9223372036854775744, %rax
	cmpb	$1, 116(%rsp)
	jbe	.LBBfbb66151_360
	movq	%rbx, %rcx
	subq	80(%rsp), %rcx
	addq	$-40, %rcx
	cmpq	$32, %rcx
	jae	.LBBfbb66151_382
.LBBfbb66151_360:
	cmpb	$2, 116(%rsp)
	jae	.LBBfbb66151_380
	xorl	%eax, %eax
.LBBfbb66151_362:
	movq	120(%rsp), %rcx
	movzbl	(%rcx,%rax), %ecx
	movb	%cl, (%rbx,%rax)
	incq	%rax
	cmpq	%rax, 8(%rsp)
	jne	.LBBfbb66151_362
	jmp	.LBBfbb66151_387
.LBBfbb66151_363:
	movl	$1, %esi
	movq	280(%rsp), %rdi
	callq	rattle_alloc@PLT
	testb	$1, %al
	je	.LBBfbb66151_366
	movq	%rdx, %r12
	cmpb	$0, 24(%rsp)
	je	.LBBfbb66151_372
	movq	280(%rsp), %rdx
	decq	%rdx
	movq	%r12, %rdi
	xorl	%esi, %esi
	movq	%rdx, %rbx
	callq	memset@PLT
	jmp	.LBBfbb66151_373
.LBBfbb66151_366:
	cmpl	$1, 128(%rsp)
	jne	.LBBfbb66151_370
	movq	104(%rsp), %rdi
	movq	32(%rdi), %rbx
	movq	48(%rdi), %r14
	movzbl	24(%rdi), %ebp
	callq	rattle_dealloc@PLT
	testb	%bpl, %bpl
	je	.LBBfbb66151_370
	testq	%r14, %r14
	je	.LBBfbb66151_370
	movq	%rbx, %rdi
	callq	rattle_dealloc@PLT
.LBBfbb66151_370:
	movq	$0, 24(%rsp)
	movb	$12, %cl
	jmp	.LBBfbb66151_177
.LBBfbb66151_371:
	movq	%rbx, %rdi
	movq	120(%rsp), %rsi
	movq	8(%rsp), %rdx
	callq	memmove@PLT
	jmp	.LBBfbb66151_387
.LBBfbb66151_372:
	xorl	%ebx, %ebx
.LBBfbb66151_373:
	movb	$0, (%r12,%rbx)
	incq	%rbx
	movzbl	72(%rsp), %r9d
	leaq	432(%rsp), %r8
	movq	%r12, %rdi
	movq	%rbx, %rsi
	xorl	%edx, %edx
	movq	120(%rsp), %rcx
	callq	hll_registers.exception_map.max_with_registers.309f015d8caa795c
	leaq	144(%rsp), %rdi
	movq	328(%rsp), %rsi
	movq	%r12, %rdx
	movq	%rbx, %rcx
	callq	hll_registers.nibble_registers.NibbleRegisters.from_values.8a2f8b2564a2651f
	movq	%r12, %rdi
	callq	rattle_dealloc@PLT
	cmpl	$1, 128(%rsp)
	jne	.LBBfbb66151_377
	movq	104(%rsp), %rdi
	movq	32(%rdi), %r14
	movq	48(%rdi), %r12
	movzbl	24(%rdi), %r13d
	callq	rattle_dealloc@PLT
	testb	%r13b, %r13b
	je	.LBBfbb66151_377
	testq	%r12, %r12
	je	.LBBfbb66151_377
	movq	%r14, %rdi
	callq	rattle_dealloc@PLT
.LBBfbb66151_377:
	cmpb	$0, 144(%rsp)
	je	.LBBfbb66151_379
	movzbl	145(%rsp), %ecx
	jmp	.LBBfbb66151_129
.LBBfbb66151_379:
	movq	152(%rsp), %rax
	movq	160(%rsp), %rbx
	movq	168(%rsp), %r14
	movq	176(%rsp), %rcx
	movq	%rcx, 8(%rsp)
	movq	184(%rsp), %rcx
	movq	%rcx, 128(%rsp)
	movq	192(%rsp), %rcx
	movq	%rcx, 104(%rsp)
	jmp	.LBBfbb66151_388
.LBBfbb66151_380:
	addq	$60, %rax
	andq	8(%rsp), %rax
	xorl	%ecx, %ecx
.LBBfbb66151_381:
	movq	80(%rsp), %rdx
	movzbl	40(%rdx,%rcx), %esi
	movb	%sil, (%rbx,%rcx)
	movzbl	41(%rdx,%rcx), %esi
	movb	%sil, 1(%rbx,%rcx)
	movzbl	42(%rdx,%rcx), %esi
	movb	%sil, 2(%rbx,%rcx)
	movzbl	43(%rdx,%rcx), %edx
	movb	%dl, 3(%rbx,%rcx)
	addq	$4, %rcx
	cmpq	%rcx, %rax
	jne	.LBBfbb66151_381
	jmp	.LBBfbb66151_387
.LBBfbb66151_382:
	cmpb	$5, 116(%rsp)
	jae	.LBBfbb66151_385
	movq	8(%rsp), %rax
	andl	$252, %eax
	xorl	%ecx, %ecx
.LBBfbb66151_384:
	movq	120(%rsp), %rdx
	movl	(%rdx,%rcx), %edx
	movl	%edx, (%rbx,%rcx)
	addq	$4, %rcx
	cmpq	%rcx, %rax
	jne	.LBBfbb66151_384
	jmp	.LBBfbb66151_387
.LBBfbb66151_385:
	addq	$32, %rax
	andq	8(%rsp), %rax
	xorl	%ecx, %ecx
.LBBfbb66151_386:
	movq	80(%rsp), %rdx
	movdqu	40(%rdx,%rcx), %xmm0
	movdqu	56(%rdx,%rcx), %xmm1
	movdqu	%xmm0, (%rbx,%rcx)
	movdqu	%xmm1, 16(%rbx,%rcx)
	addq	$32, %rcx
	cmpq	%rcx, %rax
	jne	.LBBfbb66151_386
.LBBfbb66151_387:
	movq	24(%rsp), %rax
	movb	%al, 152(%rsp)
	movq	72(%rsp), %rax
	movb	%al, 153(%rsp)
	movw	$0, 154(%rsp)
	movl	112(%rsp), %eax
	movl	%eax, 156(%rsp)
	movq	152(%rsp), %rax
	movq	8(%rsp), %r14
.LBBfbb66151_388:
	movq	96(%rsp), %r10
	andl	$1, %r10d
	movq	%rax, %rdx
	andq	$-256, %rdx
	movabsq	$-4294967296, %rsi
	movq	416(%rsp), %r11
	andq	%r11, %rsi
	movq	88(%rsp), %rbp
	movq	%rbp, %r8
	andq	$-256, %r8
	movq	424(%rsp), %r13
	movq	%r13, %r9
	andq	$-256, %r9
	movl	$2, %ecx
	movq	%rcx, 32(%rsp)
	movq	$0, 16(%rsp)
	xorl	%ecx, %ecx
	movq	64(%rsp), %rdi
	movq	%r13, %r15
	movq	104(%rsp), %r12
	movq	128(%rsp), %r13
	jmp	.LBBfbb66151_75
.Lfunc_endfbb66151:
	.size	hll_sketch.sketch.HllSketch.deserialize.8a2f8b2564a2651f, .Lfunc_endfbb66151-hll_sketch.sketch.HllSketch.deserialize.8a2f8b2564a2651f
	.section	.rodata.hll_sketch.sketch.HllSketch.deserialize.8a2f8b2564a2651f,"a",@progbits
	.p2align	2, 0x0
.LJTIfbb66151_0:
	.long	.LBBfbb66151_7-.LJTIfbb66151_0
	.long	.LBBfbb66151_10-.LJTIfbb66151_0
	.long	.LBBfbb66151_8-.LJTIfbb66151_0
	.long	.LBBfbb66151_9-.LJTIfbb66151_0

	.section	.text.hll_coupons.list.List.contains.309f015d8caa795c,"ax",@progbits
	.p2align	4
	.type	hll_coupons.list.List.contains.309f015d8caa795c,@function
hll_coupons.list.List.contains.309f015d8caa795c:
	cmpb	$0, 16(%rdi)
	je	.LBB435688d8_4
	movq	24(%rdi), %rcx
	movq	8(%rdi), %rdx
	testq	%rdx, %rdx
	je	.LBB435688d8_5
.LBB435688d8_2:
	cmpq	$2, %rdx
	ja	.LBB435688d8_7
	cmpl	%esi, (%rcx)
	sete	%dil
	cmpl	%esi, -4(%rcx,%rdx,4)
	sete	%al
	orb	%dil, %al
	retq
.LBB435688d8_4:
	leaq	20(%rdi), %rcx
	movq	8(%rdi), %rdx
	testq	%rdx, %rdx
	jne	.LBB435688d8_2
.LBB435688d8_5:
	xorl	%eax, %eax
.LBB435688d8_6:
	retq
.LBB435688d8_7:
	cmpq	$8, %rdx
	ja	.LBB435688d8_9
	leaq	-2(%rdx), %rax
	cmpq	$2, %rax
	movl	$2, %edi
	cmovbq	%rax, %rdi
	cmpq	$4, %rax
	movl	$4, %r8d
	cmovbq	%rax, %r8
	movl	%edi, %eax
	movl	%r8d, %edi
	movq	(%rcx,%rax,4), %xmm0
	movq	(%rcx), %xmm1
	punpcklqdq	%xmm0, %xmm1
	movq	(%rcx,%rdi,4), %xmm0
	movq	-8(%rcx,%rdx,4), %xmm2
	punpcklqdq	%xmm2, %xmm0
	movd	%esi, %xmm2
	pshufd	$0, %xmm2, %xmm2
	pcmpeqd	%xmm2, %xmm0
	pcmpeqd	%xmm2, %xmm1
	packssdw	%xmm0, %xmm1
	pmovmskb	%xmm1, %eax
	testl	%eax, %eax
	setne	%al
	retq
.LBB435688d8_9:
	cmpq	$17, %rdx
	jae	.LBB435688d8_11
	movdqu	(%rcx), %xmm0
	movdqu	16(%rcx), %xmm1
	movdqu	-32(%rcx,%rdx,4), %xmm2
	movdqu	-16(%rcx,%rdx,4), %xmm3
	movd	%esi, %xmm4
	pshufd	$0, %xmm4, %xmm4
	pcmpeqd	%xmm4, %xmm3
	pcmpeqd	%xmm4, %xmm2
	packssdw	%xmm3, %xmm2
	pcmpeqd	%xmm4, %xmm1
	pcmpeqd	%xmm4, %xmm0
	packssdw	%xmm1, %xmm0
	packsswb	%xmm2, %xmm0
	pmovmskb	%xmm0, %eax
	testl	%eax, %eax
	setne	%al
	retq
.LBB435688d8_11:
	movd	%esi, %xmm0
	pshufd	$0, %xmm0, %xmm0
	xorl	%eax, %eax
	movq	%rdx, %rsi
	.p2align	4
.LBB435688d8_12:
	movdqu	(%rcx,%rax,4), %xmm1
	movdqu	16(%rcx,%rax,4), %xmm2
	movdqu	32(%rcx,%rax,4), %xmm3
	movdqu	48(%rcx,%rax,4), %xmm4
	pcmpeqd	%xmm0, %xmm2
	pcmpeqd	%xmm0, %xmm1
	packssdw	%xmm2, %xmm1
	pcmpeqd	%xmm0, %xmm3
	pcmpeqd	%xmm0, %xmm4
	packssdw	%xmm4, %xmm3
	packsswb	%xmm3, %xmm1
	pmovmskb	%xmm1, %edi
	testl	%edi, %edi
	jne	.LBB435688d8_14
	addq	$16, %rax
	addq	$-16, %rsi
	cmpq	$15, %rsi
	ja	.LBB435688d8_12
.LBB435688d8_14:
	cmpq	$8, %rsi
	jb	.LBB435688d8_19
	movq	%rdx, %rsi
	subq	%rax, %rsi
	leaq	(%rcx,%rax,4), %rax
	.p2align	4
.LBB435688d8_16:
	movdqu	(%rax), %xmm1
	movdqu	16(%rax), %xmm2
	pcmpeqd	%xmm0, %xmm2
	pcmpeqd	%xmm0, %xmm1
	packssdw	%xmm2, %xmm1
	pmovmskb	%xmm1, %edi
	testl	%edi, %edi
	jne	.LBB435688d8_18
	addq	$-8, %rsi
	addq	$32, %rax
	cmpq	$7, %rsi
	ja	.LBB435688d8_16
	jmp	.LBB435688d8_19
.LBB435688d8_18:
	movb	$1, %al
	cmpq	$7, %rsi
	ja	.LBB435688d8_6
.LBB435688d8_19:
	movdqu	-32(%rcx,%rdx,4), %xmm1
	movdqu	-16(%rcx,%rdx,4), %xmm2
	pcmpeqd	%xmm0, %xmm2
	pcmpeqd	%xmm0, %xmm1
	packssdw	%xmm2, %xmm1
	pmovmskb	%xmm1, %eax
	testl	%eax, %eax
	setne	%al
	retq
.Lfunc_end435688d8:
	.size	hll_coupons.list.List.contains.309f015d8caa795c, .Lfunc_end435688d8-hll_coupons.list.List.contains.309f015d8caa795c

	.section	.text.hll_sketch.raw_coupons.RawCoupons.differ,"ax",@progbits
	.p2align	4
	.type	hll_sketch.raw_coupons.RawCoupons.differ,@function
hll_sketch.raw_coupons.RawCoupons.differ:
	pushq	%rbx
	subq	$1024, %rsp
	movq	%rdi, %rbx
	movq	%rsp, %rdi
	movl	$1024, %edx
	xorl	%esi, %esi
	callq	memset@PLT
	movq	8(%rbx), %rcx
	movq	16(%rbx), %rdx
	testq	%rdx, %rdx
	sete	%al
	cmpq	$4, %rcx
	setb	%sil
	orb	%al, %sil
	jne	.LBB8d0b1b5a_4
	movq	(%rbx), %rsi
	xorl	%edi, %edi
	movq	%rsi, %r8
	.p2align	4
.LBB8d0b1b5a_2:
	movl	(%r8), %eax
	cmpq	$67108863, %rax
	jbe	.LBB8d0b1b5a_3
	movl	%eax, %r9d
	andl	$1023, %r9d
	testq	%rdi, %rdi
	je	.LBB8d0b1b5a_15
	cmpb	$0, (%rsp,%r9)
	je	.LBB8d0b1b5a_15
	cmpq	$8, %rdi
	jae	.LBB8d0b1b5a_10
	xorl	%r11d, %r11d
	xorl	%r10d, %r10d
	jmp	.LBB8d0b1b5a_9
	.p2align	4
.LBB8d0b1b5a_10:
	movq	%rdi, %r11
	andq	$-8, %r11
	movabsq	$9223372036854775800, %r10
	andq	%rdi, %r10
	movd	%eax, %xmm0
	pshufd	$0, %xmm0, %xmm1
	pxor	%xmm0, %xmm0
	xorl	%ebx, %ebx
	pxor	%xmm2, %xmm2
	.p2align	4
.LBB8d0b1b5a_11:
	movdqu	(%rsi,%rbx,4), %xmm3
	movdqu	16(%rsi,%rbx,4), %xmm4
	pcmpeqd	%xmm1, %xmm3
	por	%xmm3, %xmm2
	pcmpeqd	%xmm1, %xmm4
	por	%xmm4, %xmm0
	addq	$8, %rbx
	cmpq	%rbx, %r11
	jne	.LBB8d0b1b5a_11
	por	%xmm2, %xmm0
	pslld	$31, %xmm0
	movmskps	%xmm0, %r11d
	testl	%r11d, %r11d
	setne	%r11b
	jmp	.LBB8d0b1b5a_13
	.p2align	4
.LBB8d0b1b5a_9:
	cmpl	%eax, (%rsi,%r10,4)
	sete	%bl
	orb	%bl, %r11b
	incq	%r10
.LBB8d0b1b5a_13:
	cmpq	%r10, %rdi
	jne	.LBB8d0b1b5a_9
	testb	$1, %r11b
	jne	.LBB8d0b1b5a_3
.LBB8d0b1b5a_15:
	movb	$1, (%rsp,%r9)
	incq	%rdi
	cmpq	%rdx, %rdi
	setae	%al
	jae	.LBB8d0b1b5a_4
	addq	$4, %r8
	addq	$-4, %rcx
	cmpq	$4, %rcx
	jae	.LBB8d0b1b5a_2
.LBB8d0b1b5a_4:
	addq	$1024, %rsp
	popq	%rbx
	retq
.LBB8d0b1b5a_3:
	xorl	%eax, %eax
	addq	$1024, %rsp
	popq	%rbx
	retq
.Lfunc_end8d0b1b5a:
	.size	hll_sketch.raw_coupons.RawCoupons.differ, .Lfunc_end8d0b1b5a-hll_sketch.raw_coupons.RawCoupons.differ

	.section	.text.hll_coupons.hash_set.read_by_order.8a2f8b2564a2651f,"ax",@progbits
	.p2align	4
	.type	hll_coupons.hash_set.read_by_order.8a2f8b2564a2651f,@function
hll_coupons.hash_set.read_by_order.8a2f8b2564a2651f:
	pushq	%rbp
	pushq	%r15
	pushq	%r14
	pushq	%r13
	pushq	%r12
	pushq	%rbx
	subq	$120, %rsp
	movl	%r8d, %r15d
	movq	%rcx, %r12
	movq	%rdx, %r13
	movq	%rsi, 8(%rsp)
	movq	%rdi, %rbx
	xorps	%xmm0, %xmm0
	movaps	%xmm0, 96(%rsp)
	movaps	%xmm0, 80(%rsp)
	movaps	%xmm0, 64(%rsp)
	movq	$0, 112(%rsp)
	movq	(%rdi), %rax
	movq	%rax, 56(%rsp)
	movq	24(%rdi), %rdi
	cmpb	$0, 16(%rbx)
	movq	40(%rbx), %rax
	movq	$3, (%rbx)
	movups	%xmm0, 8(%rbx)
	movups	%xmm0, 24(%rbx)
	movups	%xmm0, 36(%rbx)
	je	.LBB0fe8a46e_3
	testq	%rax, %rax
	je	.LBB0fe8a46e_3
	callq	rattle_dealloc@PLT
	xorps	%xmm0, %xmm0
.LBB0fe8a46e_3:
	movaps	%xmm0, 16(%rsp)
	movq	$0, 32(%rsp)
	testq	%r12, %r12
	je	.LBB0fe8a46e_14
	movq	%r12, %rax
	shrq	$61, %rax
	movb	$12, %bpl
	jne	.LBB0fe8a46e_72
	leaq	(,%r12,4), %rdi
	movl	$4, %esi
	callq	rattle_alloc@PLT
	testb	$1, %al
	je	.LBB0fe8a46e_72
	movq	%rdx, 16(%rsp)
	movq	$0, 24(%rsp)
	movq	%r12, 32(%rsp)
	testb	%r15b, %r15b
	je	.LBB0fe8a46e_32
	xorl	%r15d, %r15d
	xorl	%ebp, %ebp
	movq	8(%rsp), %rax
	.p2align	4
.LBB0fe8a46e_8:
	subq	$4, %r13
	jb	.LBB0fe8a46e_43
	movl	(%rax,%rbp,4), %r14d
	cmpl	$67108864, %r14d
	jb	.LBB0fe8a46e_47
	cmpq	%r15, 32(%rsp)
	je	.LBB0fe8a46e_12
.LBB0fe8a46e_11:
	movl	%r14d, (%rdx,%r15,4)
	incq	%r15
	movq	%r15, 24(%rsp)
	incq	%rbp
	cmpq	%rbp, %r12
	jne	.LBB0fe8a46e_8
	jmp	.LBB0fe8a46e_45
.LBB0fe8a46e_12:
	leaq	16(%rsp), %rdi
	movl	$1, %esi
	callq	std_alloc.vec.Vec.grow_amortized.e9163d01fd20791a
	testb	%al, %al
	je	.LBB0fe8a46e_41
	movq	16(%rsp), %rdx
	movq	24(%rsp), %r15
	movq	8(%rsp), %rax
	jmp	.LBB0fe8a46e_11
.LBB0fe8a46e_14:
	movq	32(%rsp), %r14
	leaq	52(%rsp), %r12
	xorl	%r15d, %r15d
.LBB0fe8a46e_15:
	movq	56(%rsp), %r13
.LBB0fe8a46e_16:
	xorl	%ecx, %ecx
	movl	$0, %edx
	movl	$0, %eax
	movl	$0, %ebp
	cmpq	$3, %r13
	jne	.LBB0fe8a46e_22
.LBB0fe8a46e_17:
	movq	%r13, 64(%rsp)
	movq	$0, 72(%rsp)
	movl	%ecx, 80(%rsp)
	movl	$0, 84(%rsp)
	movq	%rdx, 88(%rsp)
	movq	%rax, 96(%rsp)
	movq	%rbp, 104(%rsp)
	movl	$0, 112(%rsp)
	leaq	64(%rsp), %rdi
	xorl	%esi, %esi
	movq	%r12, %rdx
	movq	%r15, %rcx
	callq	hll_coupons.filling.put_by_cycles.8a2f8b2564a2651f
	testb	%al, %al
	je	.LBB0fe8a46e_26
	movl	%edx, %ebp
	cmpb	$0, 80(%rsp)
	je	.LBB0fe8a46e_21
	cmpq	$0, 104(%rsp)
	je	.LBB0fe8a46e_21
	movq	88(%rsp), %rdi
	callq	rattle_dealloc@PLT
.LBB0fe8a46e_21:
	movb	$1, %al
	testq	%r14, %r14
	jne	.LBB0fe8a46e_70
	jmp	.LBB0fe8a46e_73
.LBB0fe8a46e_22:
	movq	%r14, 8(%rsp)
	movl	$1, %ebp
	movl	%r13d, %ecx
	shlq	%cl, %rbp
	cmpq	$60, %r13
	ja	.LBB0fe8a46e_69
	movl	$4, %r14d
	movl	%r13d, %ecx
	shlq	%cl, %r14
	movl	$4, %esi
	movq	%r14, %rdi
	callq	rattle_alloc@PLT
	testb	$1, %al
	je	.LBB0fe8a46e_69
	testq	%r13, %r13
	je	.LBB0fe8a46e_54
	addq	$-4, %r14
	movq	%rdx, %rdi
	xorl	%esi, %esi
	movq	%rdx, %r13
	movq	%r14, %rdx
	callq	memset@PLT
	movq	%r13, %rdx
	movq	56(%rsp), %r13
	leaq	-1(%rbp), %rax
	jmp	.LBB0fe8a46e_55
.LBB0fe8a46e_26:
	leaq	20(%rbx), %rcx
	leaq	84(%rsp), %rdx
	movzbl	80(%rsp), %esi
	movq	24(%rbx), %rdi
	movq	40(%rbx), %rax
	movaps	64(%rsp), %xmm0
	movups	%xmm0, (%rbx)
	cmpb	$0, 16(%rbx)
	movl	%esi, 16(%rbx)
	movups	(%rdx), %xmm0
	movups	16(%rdx), %xmm1
	movups	%xmm1, 16(%rcx)
	movups	%xmm0, (%rcx)
	je	.LBB0fe8a46e_29
	testq	%rax, %rax
	je	.LBB0fe8a46e_29
	callq	rattle_dealloc@PLT
.LBB0fe8a46e_29:
	testq	%r14, %r14
	je	.LBB0fe8a46e_31
	movq	%r12, %rdi
	callq	rattle_dealloc@PLT
.LBB0fe8a46e_31:
	xorl	%ebp, %ebp
	xorl	%eax, %eax
	jmp	.LBB0fe8a46e_73
.LBB0fe8a46e_32:
	xorl	%r15d, %r15d
	xorl	%ebp, %ebp
	movq	8(%rsp), %rax
	jmp	.LBB0fe8a46e_36
.LBB0fe8a46e_33:
	movq	16(%rsp), %rdx
	movq	24(%rsp), %r15
	movq	8(%rsp), %rax
	.p2align	4
.LBB0fe8a46e_34:
	movl	%r14d, (%rdx,%r15,4)
	incq	%r15
	movq	%r15, 24(%rsp)
.LBB0fe8a46e_35:
	incq	%rbp
	cmpq	%rbp, %r12
	je	.LBB0fe8a46e_45
.LBB0fe8a46e_36:
	subq	$4, %r13
	jb	.LBB0fe8a46e_43
	movl	(%rax,%rbp,4), %r14d
	testl	%r14d, %r14d
	je	.LBB0fe8a46e_35
	cmpl	$67108863, %r14d
	jbe	.LBB0fe8a46e_47
	cmpq	%r15, 32(%rsp)
	jne	.LBB0fe8a46e_34
	leaq	16(%rsp), %rdi
	movl	$1, %esi
	callq	std_alloc.vec.Vec.grow_amortized.e9163d01fd20791a
	testb	%al, %al
	jne	.LBB0fe8a46e_33
.LBB0fe8a46e_41:
	cmpq	$0, 32(%rsp)
	je	.LBB0fe8a46e_80
	movq	16(%rsp), %rdi
	callq	rattle_dealloc@PLT
	movb	$12, %bpl
	jmp	.LBB0fe8a46e_72
.LBB0fe8a46e_43:
	cmpq	$0, 32(%rsp)
	je	.LBB0fe8a46e_53
	movq	16(%rsp), %rdi
	callq	rattle_dealloc@PLT
	xorl	%ebp, %ebp
	jmp	.LBB0fe8a46e_72
.LBB0fe8a46e_45:
	movq	16(%rsp), %r12
	movq	32(%rsp), %r14
	cmpq	$2, %r15
	jb	.LBB0fe8a46e_15
	movq	%r14, 8(%rsp)
	movabsq	$2305843009213693952, %rdx
	movl	$1, %eax
	movq	56(%rsp), %r13
	.p2align	4
.LBB0fe8a46e_50:
	movl	-4(%r12,%rax,4), %ecx
	cmpl	(%r12,%rax,4), %ecx
	jae	.LBB0fe8a46e_56
	incq	%rax
	cmpq	%rax, %r15
	jne	.LBB0fe8a46e_50
.LBB0fe8a46e_52:
	movq	8(%rsp), %r14
	jmp	.LBB0fe8a46e_16
.LBB0fe8a46e_47:
	movb	$9, %bpl
	cmpq	$0, 32(%rsp)
	je	.LBB0fe8a46e_72
	movq	16(%rsp), %rdi
	jmp	.LBB0fe8a46e_71
.LBB0fe8a46e_53:
	xorl	%ebp, %ebp
	jmp	.LBB0fe8a46e_72
.LBB0fe8a46e_54:
	xorl	%eax, %eax
.LBB0fe8a46e_55:
	movl	$0, (%rdx,%rax,4)
	incq	%rax
	movl	$1, %ecx
	movq	8(%rsp), %r14
	jmp	.LBB0fe8a46e_17
.LBB0fe8a46e_56:
	cmpq	%rdx, %r15
	jae	.LBB0fe8a46e_69
	leaq	(,%r15,4), %rbp
	movl	$4, %esi
	movq	%rbp, %rdi
	callq	rattle_alloc@PLT
	movq	%rdx, %r14
	movabsq	$2305843009213693952, %rdx
	testb	$1, %al
	je	.LBB0fe8a46e_69
	movq	%r14, %rax
	subq	%r12, %rax
	cmpq	%rbp, %rax
	jae	.LBB0fe8a46e_74
	xorl	%eax, %eax
	cmpq	$8, %r15
	jb	.LBB0fe8a46e_64
	movq	%r14, %rcx
	subq	%r12, %rcx
	cmpq	$32, %rcx
	jb	.LBB0fe8a46e_64
	addq	$-8, %rdx
	movq	%rdx, %rax
	andq	%r15, %rax
	movabsq	$9223372036854775776, %rcx
	andq	%rcx, %rbp
	xorl	%ecx, %ecx
.LBB0fe8a46e_62:
	movups	(%r12,%rcx), %xmm0
	movups	16(%r12,%rcx), %xmm1
	movups	%xmm0, (%r14,%rcx)
	movups	%xmm1, 16(%r14,%rcx)
	addq	$32, %rcx
	cmpq	%rcx, %rbp
	jne	.LBB0fe8a46e_62
	cmpq	%rax, %r15
	je	.LBB0fe8a46e_75
.LBB0fe8a46e_64:
	movq	%r15, %rdx
	movq	%rax, %rcx
	andq	$3, %rdx
	je	.LBB0fe8a46e_67
	movq	%rax, %rcx
.LBB0fe8a46e_66:
	movl	(%r12,%rcx,4), %esi
	movl	%esi, (%r14,%rcx,4)
	incq	%rcx
	decq	%rdx
	jne	.LBB0fe8a46e_66
.LBB0fe8a46e_67:
	subq	%r15, %rax
	cmpq	$-4, %rax
	ja	.LBB0fe8a46e_75
.LBB0fe8a46e_68:
	movl	(%r12,%rcx,4), %eax
	movl	%eax, (%r14,%rcx,4)
	movl	4(%r12,%rcx,4), %eax
	movl	%eax, 4(%r14,%rcx,4)
	movl	8(%r12,%rcx,4), %eax
	movl	%eax, 8(%r14,%rcx,4)
	movl	12(%r12,%rcx,4), %eax
	movl	%eax, 12(%r14,%rcx,4)
	addq	$4, %rcx
	cmpq	%rcx, %r15
	jne	.LBB0fe8a46e_68
	jmp	.LBB0fe8a46e_75
.LBB0fe8a46e_69:
	movb	$1, %al
	movb	$12, %bpl
	cmpq	$0, 8(%rsp)
	je	.LBB0fe8a46e_73
.LBB0fe8a46e_70:
	movq	%r12, %rdi
.LBB0fe8a46e_71:
	callq	rattle_dealloc@PLT
.LBB0fe8a46e_72:
	movb	$1, %al
.LBB0fe8a46e_73:
	movl	%ebp, %edx
	addq	$120, %rsp
	popq	%rbx
	popq	%r12
	popq	%r13
	popq	%r14
	popq	%r15
	popq	%rbp
	retq
.LBB0fe8a46e_74:
	movq	%r14, %rdi
	movq	%r12, %rsi
	movq	%rbp, %rdx
	callq	memmove@PLT
.LBB0fe8a46e_75:
	movq	%r14, %rdi
	movq	%r15, %rsi
	callq	std_alloc.vec.Vec.sort_unstable.d18826c7c15f4115
	movl	$1, %eax
.LBB0fe8a46e_76:
	movl	-4(%r14,%rax,4), %ecx
	cmpl	(%r14,%rax,4), %ecx
	jae	.LBB0fe8a46e_79
	incq	%rax
	cmpq	%rax, %r15
	jne	.LBB0fe8a46e_76
	movq	%r14, %rdi
	callq	rattle_dealloc@PLT
	jmp	.LBB0fe8a46e_52
.LBB0fe8a46e_79:
	movq	%r14, %rdi
	callq	rattle_dealloc@PLT
	movb	$1, %al
	movb	$9, %bpl
	cmpq	$0, 8(%rsp)
	jne	.LBB0fe8a46e_70
	jmp	.LBB0fe8a46e_73
.LBB0fe8a46e_80:
	movb	$12, %bpl
	jmp	.LBB0fe8a46e_72
.Lfunc_end0fe8a46e:
	.size	hll_coupons.hash_set.read_by_order.8a2f8b2564a2651f, .Lfunc_end0fe8a46e-hll_coupons.hash_set.read_by_order.8a2f8b2564a2651f

	.section	.text.unlikely.std_alloc.vec.Vec.grow_amortized.e9163d01fd20791a,"ax",@progbits
	.p2align	4
	.type	std_alloc.vec.Vec.grow_amortized.e9163d01fd20791a,@function
std_alloc.vec.Vec.grow_amortized.e9163d01fd20791a:
	movq	%rsi, %rax
	movq	8(%rdi), %rsi
	addq	%rsi, %rax
	jae	.LBB0f3d30c6_2
	xorl	%eax, %eax
	retq
.LBB0f3d30c6_2:
	pushq	%r14
	pushq	%rbx
	pushq	%rax
	movq	16(%rdi), %rcx
	cmpq	$5, %rax
	movl	$4, %ebx
	cmovaeq	%rax, %rbx
	movq	%rcx, %rdx
	shrq	$62, %rdx
	leaq	(%rcx,%rcx), %rax
	cmpq	%rax, %rbx
	cmovaq	%rbx, %rax
	testq	%rdx, %rdx
	cmoveq	%rax, %rbx
	movq	%rbx, %rdx
	shrq	$61, %rdx
	jne	.LBB0f3d30c6_6
	testq	%rcx, %rcx
	je	.LBB0f3d30c6_8
	movq	%rdi, %r14
	movq	(%rdi), %rdi
	shlq	$2, %rsi
	leaq	(,%rbx,4), %rdx
	movl	$4, %ecx
	callq	rattle_realloc@PLT
	testb	$1, %al
	je	.LBB0f3d30c6_6
.LBB0f3d30c6_9:
	movq	%rdx, (%r14)
	movq	%rbx, 16(%r14)
	movb	$1, %al
	addq	$8, %rsp
	popq	%rbx
	popq	%r14
	retq
.LBB0f3d30c6_8:
	movq	%rdi, %r14
	shlq	$2, %rax
	movl	$4, %esi
	movq	%rax, %rdi
	callq	rattle_alloc@PLT
	testb	$1, %al
	jne	.LBB0f3d30c6_9
.LBB0f3d30c6_6:
	xorl	%eax, %eax
	addq	$8, %rsp
	popq	%rbx
	popq	%r14
	retq
.Lfunc_end0f3d30c6:
	.size	std_alloc.vec.Vec.grow_amortized.e9163d01fd20791a, .Lfunc_end0f3d30c6-std_alloc.vec.Vec.grow_amortized.e9163d01fd20791a

	.section	.text.std_alloc.vec.Vec.sort_unstable.d18826c7c15f4115,"ax",@progbits
	.p2align	4
	.type	std_alloc.vec.Vec.sort_unstable.d18826c7c15f4115,@function
std_alloc.vec.Vec.sort_unstable.d18826c7c15f4115:
	cmpq	$20, %rsi
	ja	.LBB70d52f9e_12
	cmpq	$2, %rsi
	jb	.LBB70d52f9e_20
	movl	$1, %eax
	jmp	.LBB70d52f9e_3
.LBB70d52f9e_5:
	xorl	%edx, %edx
.LBB70d52f9e_10:
	movl	%ecx, (%rdi,%rdx)
.LBB70d52f9e_11:
	incq	%rax
	cmpq	%rsi, %rax
	je	.LBB70d52f9e_20
.LBB70d52f9e_3:
	movl	-4(%rdi,%rax,4), %r8d
	movl	(%rdi,%rax,4), %ecx
	cmpl	%r8d, %ecx
	jae	.LBB70d52f9e_11
	movq	%rax, %rdx
	movl	%r8d, (%rdi,%rax,4)
	decq	%rdx
	je	.LBB70d52f9e_5
	.p2align	4
.LBB70d52f9e_6:
	movl	-4(%rdi,%rdx,4), %r8d
	cmpl	%r8d, %ecx
	jae	.LBB70d52f9e_9
	movl	%r8d, (%rdi,%rdx,4)
	decq	%rdx
	jne	.LBB70d52f9e_6
	xorl	%edx, %edx
.LBB70d52f9e_9:
	shlq	$2, %rdx
	jmp	.LBB70d52f9e_10
.LBB70d52f9e_12:
	movl	(%rdi), %eax
	movl	4(%rdi), %ecx
	movl	$2, %edx
	cmpl	%eax, %ecx
	jae	.LBB70d52f9e_13
	.p2align	4
.LBB70d52f9e_15:
	movl	(%rdi,%rdx,4), %r8d
	cmpl	-4(%rdi,%rdx,4), %r8d
	jae	.LBB70d52f9e_18
	incq	%rdx
	cmpq	%rdx, %rsi
	jne	.LBB70d52f9e_15
	jmp	.LBB70d52f9e_17
	.p2align	4
.LBB70d52f9e_13:
	movl	(%rdi,%rdx,4), %r8d
	cmpl	-4(%rdi,%rdx,4), %r8d
	jb	.LBB70d52f9e_18
	incq	%rdx
	cmpq	%rdx, %rsi
	jne	.LBB70d52f9e_13
	jmp	.LBB70d52f9e_20
.LBB70d52f9e_18:
	cmpq	%rsi, %rdx
	jae	.LBB70d52f9e_19
	bsrq	%rsi, %rcx
	xorl	$63, %ecx
	addl	%ecx, %ecx
	xorl	$126, %ecx
	movq	%rsi, %rdx
	xorl	%esi, %esi
	jmp	core.slice.sort.unstable.quicksort.190f92464ae8a1e1
.LBB70d52f9e_19:
	cmpl	%eax, %ecx
	jae	.LBB70d52f9e_20
.LBB70d52f9e_17:
	movq	%rsi, %rdx
	shrq	%rdx
	subq	%rdx, %rsi
	leaq	(%rdi,%rsi,4), %rsi
	jmp	core.slice.edits.mirror._27_hll_coupons.coupon.Coupon
.LBB70d52f9e_20:
	retq
.Lfunc_end70d52f9e:
	.size	std_alloc.vec.Vec.sort_unstable.d18826c7c15f4115, .Lfunc_end70d52f9e-std_alloc.vec.Vec.sort_unstable.d18826c7c15f4115

	.section	.text.core.slice.sort.unstable.quicksort.190f92464ae8a1e1,"ax",@progbits
	.p2align	4
	.type	core.slice.sort.unstable.quicksort.190f92464ae8a1e1,@function
core.slice.sort.unstable.quicksort.190f92464ae8a1e1:
	pushq	%rbp
	pushq	%r15
	pushq	%r14
	pushq	%r13
	pushq	%r12
	pushq	%rbx
	subq	$40, %rsp
	movq	%rdx, %rbx
	movq	%rdi, %r14
	movq	%rdx, %r12
	subq	%rsi, %r12
	cmpq	$17, %r12
	jb	.LBB315b4148_72
	movl	%ecx, %ebp
	movq	%rsi, %r15
	movq	%rbx, 8(%rsp)
	jmp	.LBB315b4148_2
	.p2align	4
.LBB315b4148_49:
	xorl	%ecx, %ecx
.LBB315b4148_70:
	movl	%eax, (%rsi,%rcx)
	addq	%r15, %rdx
	movq	%r14, %rdi
	movq	%r15, %rsi
	movl	%ebp, %ecx
	callq	core.slice.sort.unstable.quicksort.190f92464ae8a1e1
.LBB315b4148_71:
	addq	%r13, %r15
	movq	%rbx, %r12
	subq	%r15, %r12
	cmpq	$16, %r12
	jbe	.LBB315b4148_72
.LBB315b4148_2:
	testl	%ebp, %ebp
	je	.LBB315b4148_3
	movq	%r12, %r8
	shrq	$3, %r8
	movq	%r12, %rcx
	andq	$-8, %rcx
	subq	%r8, %rcx
	addq	%r15, %rcx
	leaq	(%r15,%r8,4), %rax
	cmpq	$63, %r12
	ja	.LBB315b4148_31
	movl	(%r14,%r15,4), %edx
	movl	(%r14,%rax,4), %esi
	cmpl	%esi, %edx
	setb	%dil
	movl	(%r14,%rcx,4), %r8d
	cmpl	%r8d, %edx
	setb	%dl
	xorb	%dil, %dl
	cmpl	%r8d, %esi
	setb	%sil
	xorb	%dil, %sil
	cmovneq	%rcx, %rax
	testb	%dl, %dl
	cmovneq	%r15, %rax
	decl	%ebp
	testq	%r15, %r15
	je	.LBB315b4148_33
.LBB315b4148_50:
	leaq	(,%r15,4), %rcx
	movl	-4(%r14,%r15,4), %edx
	cmpl	(%r14,%rax,4), %edx
	jb	.LBB315b4148_34
	leaq	(%r14,%r15,4), %rdx
	subq	%r15, %rax
	je	.LBB315b4148_53
	movl	(%rdx), %esi
	movl	(%rdx,%rax,4), %edi
	movl	%edi, (%rdx)
	movl	%esi, (%rdx,%rax,4)
.LBB315b4148_53:
	movl	(%rdx), %eax
	movl	$1, %r13d
	.p2align	4
.LBB315b4148_54:
	cmpl	(%rdx,%r13,4), %eax
	jb	.LBB315b4148_57
	incq	%r13
	cmpq	%r13, %r12
	jne	.LBB315b4148_54
	movq	%r12, %r13
.LBB315b4148_57:
	leaq	-1(%r12), %r8
	cmpq	%r8, %r13
	jae	.LBB315b4148_65
	leaq	1(%r13), %rdi
	movl	4(%rdx,%r13,4), %esi
	cmpq	%r8, %rdi
	jae	.LBB315b4148_64
	movl	%r12d, %r8d
	subl	%r13d, %r8d
	movq	%r13, %r9
	testb	$1, %r8b
	je	.LBB315b4148_61
	leaq	2(%r13), %rdi
	movl	(%rdx,%r13,4), %r8d
	movl	8(%rdx,%r13,4), %r9d
	cmpl	%r9d, %eax
	movl	%r8d, 4(%rdx,%r13,4)
	movl	%r9d, (%rdx,%r13,4)
	movq	%r13, %r9
	sbbq	$-1, %r9
.LBB315b4148_61:
	leaq	-3(%r12), %r8
	cmpq	%r13, %r8
	movq	%r9, %r13
	je	.LBB315b4148_64
	movq	%r12, %r8
	subq	%rdi, %r8
	leaq	(%rcx,%rdi,4), %rcx
	addq	%r14, %rcx
	movl	$1, %edi
	movq	%r9, %r13
	.p2align	4
.LBB315b4148_63:
	movl	(%rcx,%rdi,4), %r9d
	cmpl	%r9d, %eax
	movl	(%rdx,%r13,4), %r10d
	movl	%r10d, -4(%rcx,%rdi,4)
	movl	%r9d, (%rdx,%r13,4)
	sbbq	$-1, %r13
	movl	4(%rcx,%rdi,4), %r9d
	cmpl	%r9d, %eax
	movl	(%rdx,%r13,4), %r10d
	movl	%r10d, (%rcx,%rdi,4)
	movl	%r9d, (%rdx,%r13,4)
	sbbq	$-1, %r13
	addq	$2, %rdi
	cmpq	%rdi, %r8
	jne	.LBB315b4148_63
.LBB315b4148_64:
	cmpl	%esi, %eax
	movl	(%rdx,%r13,4), %ecx
	movl	%ecx, -4(%rdx,%r12,4)
	movl	%esi, (%rdx,%r13,4)
	sbbq	$-1, %r13
.LBB315b4148_65:
	movq	%r13, %rcx
	decq	%rcx
	je	.LBB315b4148_66
	movl	(%rdx,%rcx,4), %esi
	shlq	$2, %rcx
	movl	%esi, (%rdx)
	movl	%eax, (%rdx,%rcx)
	jmp	.LBB315b4148_71
	.p2align	4
.LBB315b4148_31:
	movq	%r14, %rdi
	movq	%r15, %rsi
	movq	%rax, %rdx
	callq	core.slice.sort.pivot.median_of_medians.190f92464ae8a1e1
	decl	%ebp
	testq	%r15, %r15
	jne	.LBB315b4148_50
.LBB315b4148_33:
	xorl	%ecx, %ecx
.LBB315b4148_34:
	leaq	(%r14,%rcx), %rsi
	subq	%r15, %rax
	je	.LBB315b4148_36
	movl	(%rsi), %edx
	movl	(%rsi,%rax,4), %edi
	movl	%edi, (%rsi)
	movl	%edx, (%rsi,%rax,4)
.LBB315b4148_36:
	movl	(%rsi), %eax
	movl	$1, %r13d
	.p2align	4
.LBB315b4148_37:
	cmpl	%eax, (%rsi,%r13,4)
	jae	.LBB315b4148_40
	incq	%r13
	cmpq	%r13, %r12
	jne	.LBB315b4148_37
	movq	%r12, %r13
.LBB315b4148_40:
	leaq	-1(%r12), %r8
	cmpq	%r8, %r13
	jae	.LBB315b4148_48
	leaq	1(%r13), %rdi
	movl	4(%rsi,%r13,4), %edx
	cmpq	%r8, %rdi
	jae	.LBB315b4148_47
	movl	%r12d, %r8d
	subl	%r13d, %r8d
	movq	%r13, %r9
	testb	$1, %r8b
	je	.LBB315b4148_44
	leaq	2(%r13), %rdi
	movl	(%rsi,%r13,4), %r8d
	movl	8(%rsi,%r13,4), %r9d
	cmpl	%eax, %r9d
	movl	%r8d, 4(%rsi,%r13,4)
	movl	%r9d, (%rsi,%r13,4)
	movq	%r13, %r9
	adcq	$0, %r9
.LBB315b4148_44:
	leaq	-3(%r12), %r8
	cmpq	%r13, %r8
	movq	%r9, %r13
	je	.LBB315b4148_47
	movq	%r12, %r8
	subq	%rdi, %r8
	leaq	(%rcx,%rdi,4), %rcx
	addq	%r14, %rcx
	movl	$1, %edi
	movq	%r9, %r13
	.p2align	4
.LBB315b4148_46:
	movl	(%rcx,%rdi,4), %r9d
	xorl	%r10d, %r10d
	cmpl	%eax, %r9d
	setb	%r10b
	movl	(%rsi,%r13,4), %r11d
	movl	%r11d, -4(%rcx,%rdi,4)
	movl	%r9d, (%rsi,%r13,4)
	leaq	(%r10,%r13), %r9
	movl	4(%rcx,%rdi,4), %r11d
	cmpl	%eax, %r11d
	movl	(%rsi,%r9,4), %ebx
	movl	%ebx, (%rcx,%rdi,4)
	movl	%r11d, (%rsi,%r9,4)
	adcq	%r10, %r13
	addq	$2, %rdi
	cmpq	%rdi, %r8
	jne	.LBB315b4148_46
.LBB315b4148_47:
	cmpl	%eax, %edx
	movl	(%rsi,%r13,4), %ecx
	movl	%ecx, -4(%rsi,%r12,4)
	movl	%edx, (%rsi,%r13,4)
	adcq	$0, %r13
	movq	8(%rsp), %rbx
.LBB315b4148_48:
	movq	%r13, %rdx
	decq	%rdx
	je	.LBB315b4148_49
	leaq	(,%rdx,4), %rcx
	movl	(%rsi,%rdx,4), %edi
	movl	%edi, (%rsi)
	jmp	.LBB315b4148_70
.LBB315b4148_66:
	xorl	%ecx, %ecx
	movl	%eax, (%rdx,%rcx)
	jmp	.LBB315b4148_71
.LBB315b4148_72:
	cmpq	$2, %r12
	jb	.LBB315b4148_90
	xorl	%eax, %eax
	cmpq	$13, %r12
	setae	%al
	leaq	12(,%rax,4), %rax
	cmpq	$9, %r12
	movl	$8, %ecx
	cmovaeq	%rax, %rcx
	xorl	%edx, %edx
	movq	%rbx, %rax
	subq	%rcx, %rax
	cmovaeq	%rax, %rdx
	leaq	(%r14,%rdx,4), %rax
	subq	%rdx, %rbx
	cmpq	$16, %rbx
	jb	.LBB315b4148_75
	movl	52(%rax), %ecx
	movl	(%rax), %r14d
	movl	4(%rax), %edx
	cmpl	%r14d, %ecx
	movl	%r14d, %esi
	cmoval	%ecx, %esi
	movl	%esi, 8(%rsp)
	cmovbl	%ecx, %r14d
	movl	48(%rax), %ecx
	cmpl	%edx, %ecx
	movl	%edx, %esi
	cmoval	%ecx, %esi
	movl	%esi, 32(%rsp)
	cmovbl	%ecx, %edx
	movl	8(%rax), %r11d
	movl	60(%rax), %ecx
	cmpl	%r11d, %ecx
	movl	%r11d, %esi
	cmoval	%ecx, %esi
	movl	%esi, 28(%rsp)
	cmovbl	%ecx, %r11d
	movl	12(%rax), %r15d
	movl	56(%rax), %esi
	cmpl	%r15d, %esi
	movl	%r15d, %ecx
	cmoval	%esi, %ecx
	movl	%ecx, 4(%rsp)
	cmovbl	%esi, %r15d
	movl	16(%rax), %ecx
	movl	32(%rax), %esi
	cmpl	%ecx, %esi
	movl	%ecx, %r12d
	cmoval	%esi, %r12d
	cmovbl	%esi, %ecx
	movl	20(%rax), %r10d
	movl	24(%rax), %esi
	cmpl	%r10d, %esi
	movl	%r10d, %r8d
	cmoval	%esi, %r8d
	cmovbl	%esi, %r10d
	movl	28(%rax), %ebp
	movl	44(%rax), %esi
	cmpl	%ebp, %esi
	movl	%ebp, %r9d
	cmoval	%esi, %r9d
	cmovbl	%esi, %ebp
	movl	36(%rax), %r13d
	movl	40(%rax), %esi
	cmpl	%r13d, %esi
	movl	%r13d, %edi
	cmoval	%esi, %edi
	cmovbl	%esi, %r13d
	cmpl	%r14d, %r10d
	movl	%r14d, %esi
	cmoval	%r10d, %esi
	cmovael	%r14d, %r10d
	cmpl	%edx, %ebp
	movl	%edx, %r14d
	cmoval	%ebp, %r14d
	movl	%r14d, 24(%rsp)
	cmovael	%edx, %ebp
	cmpl	%r11d, %r13d
	movl	%r11d, %edx
	cmoval	%r13d, %edx
	cmovael	%r11d, %r13d
	cmpl	%r15d, %ecx
	movl	%r15d, %r14d
	cmoval	%ecx, %r14d
	cmovael	%r15d, %ecx
	movl	8(%rsp), %r11d
	cmpl	%r8d, %r11d
	movl	%r8d, %r15d
	cmoval	%r11d, %r15d
	movl	%r15d, 16(%rsp)
	cmovbl	%r11d, %r8d
	movl	4(%rsp), %r11d
	cmpl	%r12d, %r11d
	movl	%r12d, %r15d
	cmoval	%r11d, %r15d
	movl	%r15d, 20(%rsp)
	cmovbl	%r11d, %r12d
	movl	28(%rsp), %r11d
	cmpl	%edi, %r11d
	movl	%edi, %r15d
	cmoval	%r11d, %r15d
	movl	%r15d, 4(%rsp)
	cmovbl	%r11d, %edi
	movl	32(%rsp), %r11d
	cmpl	%r9d, %r11d
	movl	%r9d, %r15d
	cmoval	%r11d, %r15d
	movl	%r15d, 8(%rsp)
	cmovbl	%r11d, %r9d
	cmpl	%r10d, %ebp
	movl	%r10d, %r11d
	cmoval	%ebp, %r11d
	movl	%r11d, 36(%rsp)
	cmovael	%r10d, %ebp
	cmpl	%r13d, %ecx
	movl	%r13d, %r11d
	cmoval	%ecx, %r11d
	cmovael	%r13d, %ecx
	cmpl	%r14d, %esi
	movl	%r14d, %r10d
	cmoval	%esi, %r10d
	cmovbl	%esi, %r14d
	cmpl	%r8d, %r12d
	movl	%r8d, %esi
	cmoval	%r12d, %esi
	movl	%esi, 28(%rsp)
	cmovael	%r8d, %r12d
	movl	%r12d, %r13d
	movl	24(%rsp), %esi
	cmpl	%esi, %edx
	movl	%esi, %r15d
	cmoval	%edx, %r15d
	cmovael	%esi, %edx
	cmpl	%edi, %r9d
	movl	%edi, %r12d
	cmoval	%r9d, %r12d
	cmovael	%edi, %r9d
	movl	16(%rsp), %esi
	movl	8(%rsp), %edi
	cmpl	%edi, %esi
	movl	%edi, %r8d
	cmoval	%esi, %r8d
	movl	%r8d, 24(%rsp)
	cmovbl	%esi, %edi
	movl	%edi, 8(%rsp)
	movl	4(%rsp), %edi
	movl	20(%rsp), %esi
	cmpl	%esi, %edi
	movl	%esi, %r8d
	cmoval	%edi, %r8d
	cmovael	%esi, %edi
	cmpl	%ebp, %ecx
	movl	%ebp, %esi
	cmoval	%ecx, %esi
	movl	%esi, 4(%rsp)
	cmovael	%ebp, %ecx
	movl	%ecx, 32(%rsp)
	movl	36(%rsp), %esi
	cmpl	%esi, %r11d
	movl	%esi, %ecx
	cmoval	%r11d, %ecx
	cmovael	%esi, %r11d
	cmpl	%r14d, %r9d
	movl	%r14d, %esi
	cmoval	%r9d, %esi
	movl	%esi, 20(%rsp)
	cmovael	%r14d, %r9d
	cmpl	%r10d, %r12d
	movl	%r10d, %esi
	cmoval	%r12d, %esi
	movl	%esi, 16(%rsp)
	cmovael	%r10d, %r12d
	cmpl	%r13d, %edx
	movl	%r13d, %r10d
	cmoval	%edx, %r10d
	cmovael	%r13d, %edx
	movl	%edx, %ebp
	movl	28(%rsp), %edx
	cmpl	%edx, %r15d
	movl	%edx, %r13d
	cmoval	%r15d, %r13d
	cmovael	%edx, %r15d
	movl	%edi, %edx
	movl	8(%rsp), %esi
	cmpl	%esi, %edi
	movl	%esi, %edi
	cmoval	%edx, %edi
	cmovael	%esi, %edx
	movl	24(%rsp), %esi
	cmpl	%esi, %r8d
	movl	%esi, %r14d
	cmoval	%r8d, %r14d
	movl	%r14d, 28(%rsp)
	cmovael	%esi, %r8d
	movl	4(%rsp), %r14d
	cmpl	%r11d, %r14d
	movl	%r11d, %esi
	cmoval	%r14d, %esi
	cmovbl	%r14d, %r11d
	cmpl	%ecx, %edx
	movl	%ecx, %r14d
	cmoval	%edx, %r14d
	movl	%r14d, 24(%rsp)
	cmovael	%ecx, %edx
	movl	%edx, 4(%rsp)
	movl	%ebp, %ecx
	cmpl	%r9d, %ebp
	movl	%r9d, %ebp
	cmoval	%ecx, %ebp
	cmovael	%r9d, %ecx
	movl	%ecx, 8(%rsp)
	cmpl	%r12d, %r10d
	movl	%r12d, %ecx
	cmoval	%r10d, %ecx
	cmovael	%r12d, %r10d
	movl	20(%rsp), %edx
	cmpl	%r15d, %edx
	movl	%r15d, %r14d
	cmoval	%edx, %r14d
	cmovbl	%edx, %r15d
	movl	16(%rsp), %r9d
	cmpl	%r13d, %r9d
	movl	%r13d, %edx
	cmoval	%r9d, %edx
	cmovbl	%r9d, %r13d
	cmpl	%r8d, %edi
	movl	%r8d, %r9d
	cmoval	%edi, %r9d
	cmovbl	%edi, %r8d
	movl	8(%rsp), %r12d
	cmpl	%r11d, %r12d
	movl	%r11d, %edi
	cmoval	%r12d, %edi
	cmovael	%r11d, %r12d
	movl	%r12d, 8(%rsp)
	cmpl	%esi, %ebp
	movl	%esi, %r11d
	cmoval	%ebp, %r11d
	cmovael	%esi, %ebp
	cmpl	%r10d, %r15d
	movl	%r10d, %r12d
	cmoval	%r15d, %r12d
	cmovael	%r10d, %r15d
	cmpl	%ecx, %r14d
	movl	%ecx, %esi
	cmoval	%r14d, %esi
	movl	%esi, 20(%rsp)
	cmovael	%ecx, %r14d
	cmpl	%r13d, %r8d
	movl	%r13d, %ecx
	cmoval	%r8d, %ecx
	cmovael	%r13d, %r8d
	cmpl	%edx, %r9d
	movl	%edx, %esi
	cmoval	%r9d, %esi
	movl	%esi, 16(%rsp)
	cmovael	%edx, %r9d
	cmpl	%ebp, %edi
	movl	%ebp, %r13d
	cmoval	%edi, %r13d
	cmovbl	%edi, %ebp
	movl	4(%rsp), %edx
	cmpl	%edx, %r11d
	movl	%edx, %r10d
	cmoval	%r11d, %r10d
	cmovael	%edx, %r11d
	movl	24(%rsp), %edx
	cmpl	%r8d, %edx
	movl	%r8d, %edi
	cmoval	%edx, %edi
	cmovbl	%edx, %r8d
	cmpl	%r9d, %ecx
	movl	%r9d, %edx
	cmoval	%ecx, %edx
	movl	%edx, 4(%rsp)
	cmovbl	%ecx, %r9d
	cmpl	%r11d, %r15d
	movl	%r11d, %edx
	cmoval	%r15d, %edx
	movl	32(%rsp), %ecx
	movl	%ecx, (%rax)
	cmovbl	%r15d, %r11d
	cmpl	%r10d, %r12d
	movl	%r10d, %esi
	cmoval	%r12d, %esi
	movl	28(%rsp), %ecx
	movl	%ecx, 60(%rax)
	cmovbl	%r12d, %r10d
	cmpl	%r14d, %r8d
	movl	%r14d, %r15d
	cmoval	%r8d, %r15d
	movl	8(%rsp), %ecx
	movl	%ecx, 4(%rax)
	cmovael	%r14d, %r8d
	movl	20(%rsp), %r14d
	cmpl	%r14d, %edi
	movl	%r14d, %ecx
	cmoval	%edi, %ecx
	movl	16(%rsp), %r12d
	movl	%r12d, 56(%rax)
	cmovael	%r14d, %edi
	cmpl	%r11d, %r13d
	movq	%rbx, %r14
	movl	%r11d, %ebx
	cmoval	%r13d, %ebx
	movl	%ebp, 8(%rax)
	cmovbl	%r13d, %r11d
	cmpl	%edx, %r10d
	movl	%edx, %ebp
	cmoval	%r10d, %ebp
	movl	4(%rsp), %r12d
	movl	%r12d, 52(%rax)
	cmovael	%edx, %r10d
	cmpl	%r8d, %esi
	movl	%r8d, %edx
	cmoval	%esi, %edx
	movl	%r11d, 12(%rax)
	cmovbl	%esi, %r8d
	cmpl	%r15d, %edi
	movl	%r15d, %esi
	cmoval	%edi, %esi
	movl	%ebx, 16(%rax)
	movq	%r14, %rbx
	cmovael	%r15d, %edi
	cmpl	%r9d, %ecx
	movl	%r9d, %r11d
	cmoval	%ecx, %r11d
	movl	%r10d, 20(%rax)
	cmovael	%r9d, %ecx
	cmpl	%ebp, %r8d
	movl	%ebp, %r9d
	cmoval	%r8d, %r9d
	movl	%esi, 40(%rax)
	movl	%ecx, 44(%rax)
	cmovael	%ebp, %r8d
	movl	%r11d, 48(%rax)
	movl	%r8d, 24(%rax)
	movl	%r9d, 28(%rax)
	cmpl	%edx, %edi
	movl	%edx, %ecx
	cmoval	%edi, %ecx
	cmovael	%edx, %edi
	movl	%edi, 32(%rax)
	movl	%ecx, 36(%rax)
	jmp	.LBB315b4148_80
.LBB315b4148_3:
	leaq	(%r14,%r15,4), %rax
	movq	%r12, %rcx
	shrq	%rcx
	movq	%rcx, %rdx
	jmp	.LBB315b4148_4
	.p2align	4
.LBB315b4148_15:
	testq	%rdx, %rdx
	je	.LBB315b4148_16
.LBB315b4148_4:
	decq	%rdx
	movq	%rdx, %rsi
	jmp	.LBB315b4148_5
	.p2align	4
.LBB315b4148_11:
	movl	%r9d, (%rax,%rdi,4)
	movl	%r8d, (%rax,%rsi,4)
.LBB315b4148_14:
	cmpq	%rcx, %rsi
	jae	.LBB315b4148_15
.LBB315b4148_5:
	movq	%rsi, %rdi
	leaq	1(,%rsi,2), %rsi
	leaq	2(,%rdi,2), %r8
	cmpq	%r12, %r8
	je	.LBB315b4148_9
	leaq	(%rdi,%rdi), %r9
	movl	(%rax,%rsi,4), %r10d
	cmpl	8(%rax,%r9,4), %r10d
	jb	.LBB315b4148_8
	movq	%rsi, %r8
.LBB315b4148_8:
	movq	%r8, %rsi
.LBB315b4148_9:
	movl	(%rax,%rdi,4), %r8d
	movl	(%rax,%rsi,4), %r9d
	cmpl	%r9d, %r8d
	jae	.LBB315b4148_15
	cmpq	%rsi, %rdi
	jb	.LBB315b4148_11
	jbe	.LBB315b4148_14
	movl	%r8d, (%rax,%rsi,4)
	movl	%r9d, (%rax,%rdi,4)
	jmp	.LBB315b4148_14
	.p2align	4
.LBB315b4148_28:
	cmpq	$1, %r12
	jbe	.LBB315b4148_90
.LBB315b4148_16:
	movl	(%rax), %ecx
	movl	-4(%rax,%r12,4), %edx
	movl	%edx, (%rax)
	movl	%ecx, -4(%rax,%r12,4)
	decq	%r12
	movq	%r12, %rcx
	shrq	%rcx
	je	.LBB315b4148_28
	xorl	%edx, %edx
	jmp	.LBB315b4148_18
	.p2align	4
.LBB315b4148_24:
	movl	%r8d, (%rax,%rsi,4)
	movl	%edi, (%rax,%rdx,4)
.LBB315b4148_27:
	cmpq	%rcx, %rdx
	jae	.LBB315b4148_28
.LBB315b4148_18:
	movq	%rdx, %rsi
	leaq	1(,%rdx,2), %rdx
	leaq	2(,%rsi,2), %rdi
	cmpq	%r12, %rdi
	je	.LBB315b4148_22
	leaq	(%rsi,%rsi), %r8
	movl	(%rax,%rdx,4), %r9d
	cmpl	8(%rax,%r8,4), %r9d
	jb	.LBB315b4148_21
	movq	%rdx, %rdi
.LBB315b4148_21:
	movq	%rdi, %rdx
.LBB315b4148_22:
	movl	(%rax,%rsi,4), %edi
	movl	(%rax,%rdx,4), %r8d
	cmpl	%r8d, %edi
	jae	.LBB315b4148_28
	cmpq	%rdx, %rsi
	jb	.LBB315b4148_24
	jbe	.LBB315b4148_27
	movl	%edi, (%rax,%rdx,4)
	movl	%r8d, (%rax,%rsi,4)
	jmp	.LBB315b4148_27
.LBB315b4148_75:
	cmpq	$12, %rbx
	jb	.LBB315b4148_77
	movl	32(%rax), %ecx
	movl	(%rax), %ebp
	movl	4(%rax), %esi
	cmpl	%ebp, %ecx
	movl	%ebp, %r8d
	cmoval	%ecx, %r8d
	cmovbl	%ecx, %ebp
	movl	28(%rax), %ecx
	cmpl	%esi, %ecx
	movl	%esi, %edx
	cmoval	%ecx, %edx
	movl	%edx, 4(%rsp)
	cmovbl	%ecx, %esi
	movl	8(%rax), %r15d
	movl	24(%rax), %ecx
	cmpl	%r15d, %ecx
	movl	%r15d, %edi
	cmoval	%ecx, %edi
	cmovbl	%ecx, %r15d
	movl	12(%rax), %r11d
	movl	44(%rax), %ecx
	cmpl	%r11d, %ecx
	movl	%r11d, %edx
	cmoval	%ecx, %edx
	movl	%edx, 32(%rsp)
	cmovbl	%ecx, %r11d
	movl	16(%rax), %r10d
	movl	40(%rax), %edx
	cmpl	%r10d, %edx
	movl	%r10d, %ecx
	cmoval	%edx, %ecx
	cmovbl	%edx, %r10d
	movl	20(%rax), %edx
	movq	%rbx, 8(%rsp)
	movl	36(%rax), %ebx
	cmpl	%edx, %ebx
	movl	%edx, %r9d
	cmoval	%ebx, %r9d
	cmovbl	%ebx, %edx
	cmpl	%ebp, %esi
	movl	%ebp, %r12d
	cmoval	%esi, %r12d
	cmovael	%ebp, %esi
	cmpl	%r15d, %edx
	movl	%r15d, %r13d
	cmoval	%edx, %r13d
	cmovael	%r15d, %edx
	cmpl	%r11d, %r10d
	movl	%r11d, %ebp
	cmoval	%r10d, %ebp
	cmovael	%r11d, %r10d
	cmpl	%edi, %r9d
	movl	%edi, %r14d
	cmoval	%r9d, %r14d
	cmovael	%edi, %r9d
	movl	4(%rsp), %edi
	cmpl	%edi, %r8d
	movl	%edi, %r15d
	cmoval	%r8d, %r15d
	cmovbl	%r8d, %edi
	movl	%edi, %ebx
	movl	32(%rsp), %edi
	cmpl	%ecx, %edi
	movl	%ecx, %r8d
	cmoval	%edi, %r8d
	cmovbl	%edi, %ecx
	cmpl	%esi, %edx
	movl	%esi, %edi
	cmoval	%edx, %edi
	cmovael	%esi, %edx
	cmpl	%r12d, %r9d
	movl	%r12d, %r11d
	cmoval	%r9d, %r11d
	cmovael	%r12d, %r9d
	cmpl	%r13d, %ecx
	movl	%r13d, %r12d
	cmoval	%ecx, %r12d
	cmovael	%r13d, %ecx
	cmpl	%r14d, %r8d
	movl	%r14d, %esi
	cmoval	%r8d, %esi
	cmovael	%r14d, %r8d
	cmpl	%edx, %r10d
	movl	%edx, %r13d
	cmoval	%r10d, %r13d
	cmovbl	%r10d, %edx
	cmpl	%r9d, %edi
	movl	%r9d, %r14d
	cmoval	%edi, %r14d
	cmovbl	%edi, %r9d
	cmpl	%ebp, %r11d
	movl	%ebp, %edi
	cmoval	%r11d, %edi
	cmovael	%ebp, %r11d
	cmpl	%ecx, %ebx
	movl	%ecx, %r10d
	cmoval	%ebx, %r10d
	cmovbl	%ebx, %ecx
	cmpl	%r15d, %esi
	movl	%r15d, %ebx
	cmoval	%esi, %ebx
	movl	%ebx, 4(%rsp)
	cmovael	%r15d, %esi
	cmpl	%r8d, %r12d
	movl	%r8d, %ebp
	cmoval	%r12d, %ebp
	cmovbl	%r12d, %r8d
	cmpl	%r9d, %r11d
	movl	%r9d, %r15d
	cmoval	%r11d, %r15d
	cmovael	%r9d, %r11d
	cmpl	%r13d, %ecx
	movl	%r13d, %r9d
	cmoval	%ecx, %r9d
	cmovael	%r13d, %ecx
	cmpl	%edi, %esi
	movl	%edi, %ebx
	cmoval	%esi, %ebx
	cmovael	%edi, %esi
	cmpl	%r10d, %ebp
	movl	%r10d, %edi
	cmoval	%ebp, %edi
	cmovael	%r10d, %ebp
	cmpl	%r11d, %ecx
	movl	%r11d, %r13d
	cmoval	%ecx, %r13d
	cmovael	%r11d, %ecx
	cmpl	%r14d, %r9d
	movl	%r14d, %r11d
	cmoval	%r9d, %r11d
	cmovael	%r14d, %r9d
	cmpl	%esi, %r8d
	movl	%esi, %r10d
	cmoval	%r8d, %r10d
	cmovbl	%r8d, %esi
	cmpl	%ebx, %edi
	movl	%ebx, %r12d
	cmoval	%edi, %r12d
	cmovael	%ebx, %edi
	cmpl	%r9d, %r13d
	movl	%r9d, %r8d
	cmoval	%r13d, %r8d
	cmovbl	%r13d, %r9d
	cmpl	%r15d, %r11d
	movl	%r15d, %ebx
	cmoval	%r11d, %ebx
	cmovael	%r15d, %r11d
	cmpl	%esi, %ebp
	movl	%esi, %r14d
	cmoval	%ebp, %r14d
	movl	%edx, (%rax)
	cmovbl	%ebp, %esi
	cmpl	%edi, %r10d
	movl	%edi, %edx
	cmoval	%r10d, %edx
	movl	4(%rsp), %ebp
	movl	%ebp, 44(%rax)
	cmovbl	%r10d, %edi
	cmpl	%r11d, %esi
	movl	%r11d, %r10d
	cmoval	%esi, %r10d
	movl	%ecx, 4(%rax)
	cmovael	%r11d, %esi
	cmpl	%ebx, %r14d
	movl	%ebx, %ecx
	cmoval	%r14d, %ecx
	movl	%r12d, 40(%rax)
	cmovael	%ebx, %r14d
	movq	8(%rsp), %rbx
	cmpl	%r8d, %esi
	movl	%r8d, %r11d
	cmoval	%esi, %r11d
	movl	%r9d, 8(%rax)
	cmovael	%r8d, %esi
	cmpl	%r14d, %r10d
	movl	%r14d, %r8d
	cmoval	%r10d, %r8d
	movl	%edx, 36(%rax)
	movl	%esi, 12(%rax)
	cmovbl	%r10d, %r14d
	movl	%r11d, 16(%rax)
	movl	%r14d, 20(%rax)
	movl	%r8d, 24(%rax)
	cmpl	%ecx, %edi
	movl	%ecx, %edx
	cmoval	%edi, %edx
	cmovbl	%edi, %ecx
	movl	%ecx, 28(%rax)
	movl	%edx, 32(%rax)
	jmp	.LBB315b4148_80
.LBB315b4148_77:
	cmpq	$8, %rbx
	jb	.LBB315b4148_79
	movl	8(%rax), %ecx
	movl	(%rax), %edx
	movl	4(%rax), %r11d
	cmpl	%edx, %ecx
	movl	%edx, %r8d
	cmoval	%ecx, %r8d
	cmovbl	%ecx, %edx
	movl	12(%rax), %ecx
	cmpl	%r11d, %ecx
	movl	%r11d, %r10d
	cmoval	%ecx, %r10d
	cmovbl	%ecx, %r11d
	movl	16(%rax), %r9d
	movl	24(%rax), %ecx
	cmpl	%r9d, %ecx
	movl	%r9d, %edi
	cmoval	%ecx, %edi
	cmovbl	%ecx, %r9d
	movl	20(%rax), %ecx
	movq	%rbx, %r14
	movl	28(%rax), %ebx
	cmpl	%ecx, %ebx
	movl	%ecx, %esi
	cmoval	%ebx, %esi
	cmovbl	%ebx, %ecx
	cmpl	%edx, %r9d
	movl	%edx, %ebp
	cmoval	%r9d, %ebp
	cmovael	%edx, %r9d
	cmpl	%r11d, %ecx
	movl	%r11d, %edx
	cmoval	%ecx, %edx
	cmovael	%r11d, %ecx
	cmpl	%r8d, %edi
	movl	%r8d, %r11d
	cmoval	%edi, %r11d
	cmovael	%r8d, %edi
	cmpl	%r10d, %esi
	movl	%r10d, %r8d
	cmoval	%esi, %r8d
	cmovael	%r10d, %esi
	cmpl	%r9d, %ecx
	movl	%r9d, %r10d
	cmoval	%ecx, %r10d
	cmovael	%r9d, %ecx
	cmpl	%edi, %esi
	movl	%edi, %ebx
	cmoval	%esi, %ebx
	cmovael	%edi, %esi
	cmpl	%ebp, %edx
	movl	%ebp, %edi
	cmoval	%edx, %edi
	cmovael	%ebp, %edx
	cmpl	%r11d, %r8d
	movl	%r11d, %r9d
	cmoval	%r8d, %r9d
	cmovael	%r11d, %r8d
	cmpl	%esi, %edx
	movl	%esi, %r11d
	cmoval	%edx, %r11d
	cmovael	%esi, %edx
	cmpl	%ebx, %edi
	movl	%ebx, %esi
	cmoval	%edi, %esi
	cmovael	%ebx, %edi
	cmpl	%r10d, %r11d
	movl	%r10d, %ebx
	cmoval	%r11d, %ebx
	cmovael	%r10d, %r11d
	cmpl	%edi, %r8d
	movl	%edi, %r10d
	cmoval	%r8d, %r10d
	cmovbl	%r8d, %edi
	cmpl	%r11d, %edx
	movl	%r11d, %r8d
	cmoval	%edx, %r8d
	movl	%ecx, (%rax)
	cmovbl	%edx, %r11d
	cmpl	%edi, %ebx
	movl	%edi, %ecx
	cmoval	%ebx, %ecx
	movl	%r9d, 28(%rax)
	movl	%r11d, 4(%rax)
	cmovbl	%ebx, %edi
	movq	%r14, %rbx
	movl	%r8d, 8(%rax)
	movl	%edi, 12(%rax)
	movl	%ecx, 16(%rax)
	cmpl	%esi, %r10d
	movl	%esi, %ecx
	cmoval	%r10d, %ecx
	cmovael	%esi, %r10d
	movl	%r10d, 20(%rax)
	movl	%ecx, 24(%rax)
	jmp	.LBB315b4148_80
.LBB315b4148_79:
	cmpq	$2, %rbx
	jb	.LBB315b4148_90
.LBB315b4148_80:
	movl	$1, %ecx
	jmp	.LBB315b4148_81
.LBB315b4148_83:
	xorl	%esi, %esi
.LBB315b4148_88:
	movl	%edx, (%rax,%rsi)
.LBB315b4148_89:
	incq	%rcx
	cmpq	%rbx, %rcx
	je	.LBB315b4148_90
.LBB315b4148_81:
	movl	-4(%rax,%rcx,4), %edi
	movl	(%rax,%rcx,4), %edx
	cmpl	%edi, %edx
	jae	.LBB315b4148_89
	movq	%rcx, %rsi
	movl	%edi, (%rax,%rcx,4)
	decq	%rsi
	je	.LBB315b4148_83
	.p2align	4
.LBB315b4148_84:
	movl	-4(%rax,%rsi,4), %edi
	cmpl	%edi, %edx
	jae	.LBB315b4148_87
	movl	%edi, (%rax,%rsi,4)
	decq	%rsi
	jne	.LBB315b4148_84
	xorl	%esi, %esi
.LBB315b4148_87:
	shlq	$2, %rsi
	jmp	.LBB315b4148_88
.LBB315b4148_90:
	addq	$40, %rsp
	popq	%rbx
	popq	%r12
	popq	%r13
	popq	%r14
	popq	%r15
	popq	%rbp
	retq
.Lfunc_end315b4148:
	.size	core.slice.sort.unstable.quicksort.190f92464ae8a1e1, .Lfunc_end315b4148-core.slice.sort.unstable.quicksort.190f92464ae8a1e1

	.section	.text.core.slice.sort.pivot.median_of_medians.190f92464ae8a1e1,"ax",@progbits
	.p2align	4
	.type	core.slice.sort.pivot.median_of_medians.190f92464ae8a1e1,@function
core.slice.sort.pivot.median_of_medians.190f92464ae8a1e1:
	pushq	%rbp
	pushq	%r15
	pushq	%r14
	pushq	%r13
	pushq	%r12
	pushq	%rbx
	pushq	%rax
	movq	%rcx, %r14
	movq	%rdx, %rbx
	cmpq	$8, %r8
	jae	.LBB71ffa8e2_2
	movl	(%rdi,%rsi,4), %eax
	movl	(%rdi,%rbx,4), %ecx
	cmpl	%ecx, %eax
	setb	%dl
	movl	(%rdi,%r14,4), %edi
	cmpl	%edi, %eax
	setb	%al
	xorb	%dl, %al
	cmpl	%edi, %ecx
	setb	%cl
	xorb	%dl, %cl
	cmovneq	%r14, %rbx
	testb	%al, %al
	cmovneq	%rsi, %rbx
	jmp	.LBB71ffa8e2_3
.LBB71ffa8e2_2:
	movq	%r8, %r12
	shrq	$3, %r12
	leaq	(%rsi,%r12,4), %rdx
	andq	$-8, %r8
	subq	%r12, %r8
	leaq	(%r8,%rsi), %rcx
	movq	%rdi, %r13
	movq	%r8, %rbp
	movq	%r12, %r8
	callq	core.slice.sort.pivot.median_of_medians.190f92464ae8a1e1
	movq	%rax, %r15
	leaq	(%rbx,%r12,4), %rdx
	leaq	(%rbx,%rbp), %rcx
	movq	%r13, %rdi
	movq	%rbx, %rsi
	movq	%r12, %r8
	callq	core.slice.sort.pivot.median_of_medians.190f92464ae8a1e1
	movq	%rax, %rbx
	leaq	(%r14,%r12,4), %rdx
	addq	%r14, %rbp
	movq	%r13, %rdi
	movq	%r14, %rsi
	movq	%rbp, %rcx
	movq	%r12, %r8
	callq	core.slice.sort.pivot.median_of_medians.190f92464ae8a1e1
	movl	(%r13,%r15,4), %ecx
	movl	(%r13,%rbx,4), %edx
	cmpl	%edx, %ecx
	setb	%sil
	movl	(%r13,%rax,4), %edi
	cmpl	%edi, %ecx
	setb	%cl
	xorb	%sil, %cl
	cmpl	%edi, %edx
	setb	%dl
	xorb	%sil, %dl
	cmovneq	%rax, %rbx
	testb	%cl, %cl
	cmovneq	%r15, %rbx
.LBB71ffa8e2_3:
	movq	%rbx, %rax
	addq	$8, %rsp
	popq	%rbx
	popq	%r12
	popq	%r13
	popq	%r14
	popq	%r15
	popq	%rbp
	retq
.Lfunc_end71ffa8e2:
	.size	core.slice.sort.pivot.median_of_medians.190f92464ae8a1e1, .Lfunc_end71ffa8e2-core.slice.sort.pivot.median_of_medians.190f92464ae8a1e1

	.section	.text.core.slice.edits.mirror._27_hll_coupons.coupon.Coupon,"ax",@progbits
	.p2align	4
	.type	core.slice.edits.mirror._27_hll_coupons.coupon.Coupon,@function
core.slice.edits.mirror._27_hll_coupons.coupon.Coupon:
	leaq	(%rdi,%rdx,4), %rax
	leaq	(%rsi,%rdx,4), %rcx
	cmpq	%rcx, %rdi
	setb	%cl
	cmpq	%rax, %rsi
	setb	%al
	testb	%al, %cl
	je	.LBBce6058b4_2
	xorl	%eax, %eax
	jmp	.LBBce6058b4_5
.LBBce6058b4_2:
	movabsq	$9223372036854775804, %rax
	andq	%rdx, %rax
	movq	%rdx, %rcx
	andq	$-4, %rcx
	negq	%rcx
	leaq	(%rsi,%rdx,4), %r8
	addq	$-16, %r8
	xorl	%r9d, %r9d
	movq	%rdi, %r10
	.p2align	4
.LBBce6058b4_3:
	movdqu	(%r10), %xmm0
	movdqu	(%r8,%r9,4), %xmm1
	pshufd	$27, %xmm1, %xmm1
	movdqu	%xmm1, (%r10)
	pshufd	$27, %xmm0, %xmm0
	movdqu	%xmm0, (%r8,%r9,4)
	addq	$-4, %r9
	addq	$16, %r10
	cmpq	%r9, %rcx
	jne	.LBBce6058b4_3
	cmpq	%rax, %rdx
	je	.LBBce6058b4_10
.LBBce6058b4_5:
	movq	%rax, %rcx
	orq	$1, %rcx
	testb	$1, %dl
	je	.LBBce6058b4_7
	movq	%rax, %r8
	notq	%r8
	addq	%rdx, %r8
	movl	(%rdi,%rax,4), %r9d
	movl	(%rsi,%r8,4), %r10d
	movl	%r10d, (%rdi,%rax,4)
	movl	%r9d, (%rsi,%r8,4)
	movq	%rcx, %rax
.LBBce6058b4_7:
	cmpq	%rcx, %rdx
	je	.LBBce6058b4_10
	subq	%rax, %rdx
	leaq	(%rdi,%rax,4), %rax
	addq	$4, %rax
	.p2align	4
.LBBce6058b4_9:
	movl	-4(%rax), %ecx
	movl	-4(%rsi,%rdx,4), %edi
	movl	%edi, -4(%rax)
	movl	%ecx, -4(%rsi,%rdx,4)
	movl	(%rax), %ecx
	movl	-8(%rsi,%rdx,4), %edi
	movl	%edi, (%rax)
	movl	%ecx, -8(%rsi,%rdx,4)
	addq	$8, %rax
	addq	$-2, %rdx
	jne	.LBBce6058b4_9
.LBBce6058b4_10:
	retq
.Lfunc_endce6058b4:
	.size	core.slice.edits.mirror._27_hll_coupons.coupon.Coupon, .Lfunc_endce6058b4-core.slice.edits.mirror._27_hll_coupons.coupon.Coupon

	.section	.text.hll_coupons.filling.put_by_cycles.8a2f8b2564a2651f,"ax",@progbits
	.p2align	4
	.type	hll_coupons.filling.put_by_cycles.8a2f8b2564a2651f,@function
hll_coupons.filling.put_by_cycles.8a2f8b2564a2651f:
	pushq	%rbp
	pushq	%r15
	pushq	%r14
	pushq	%r13
	pushq	%r12
	pushq	%rbx
	subq	$56, %rsp
	movq	%rcx, %r14
	movq	%rdx, %r15
	movl	%esi, %ebp
	movq	%rdi, %r12
	xorps	%xmm0, %xmm0
	movaps	%xmm0, 16(%rsp)
	movaps	%xmm0, 32(%rsp)
	leaq	8(%rsp), %rax
	movq	%rax, 24(%rsp)
	xorl	%r13d, %r13d
	jmp	.LBB20af74d2_1
	.p2align	4
.LBB20af74d2_3:
	incq	%r13
.LBB20af74d2_1:
	cmpq	%r13, %r14
	je	.LBB20af74d2_14
	movl	(%r15,%r13,4), %ecx
	testl	%ecx, %ecx
	je	.LBB20af74d2_3
	movzbl	%bpl, %edx
	leaq	16(%rsp), %rsi
	movq	%r12, %rdi
	callq	hll_coupons.filling.put_absent.8a2f8b2564a2651f
	testb	%al, %al
	je	.LBB20af74d2_3
	movl	%edx, %ebx
	movq	24(%rsp), %r14
	movq	32(%rsp), %r13
	movq	40(%rsp), %rax
	movq	%rax, 48(%rsp)
	testq	%r13, %r13
	je	.LBB20af74d2_12
	leaq	64(%r14), %rbp
	jmp	.LBB20af74d2_7
	.p2align	4
.LBB20af74d2_11:
	addq	$72, %rbp
	decq	%r13
	je	.LBB20af74d2_12
.LBB20af74d2_7:
	movq	-16(%rbp), %r15
	movq	(%rbp), %r12
	cmpq	$0, -24(%rbp)
	je	.LBB20af74d2_9
	movq	-40(%rbp), %rdi
	callq	rattle_dealloc@PLT
.LBB20af74d2_9:
	testq	%r12, %r12
	je	.LBB20af74d2_11
	movq	%r15, %rdi
	callq	rattle_dealloc@PLT
	jmp	.LBB20af74d2_11
.LBB20af74d2_14:
	movq	24(%rsp), %rbx
	movq	32(%rsp), %r12
	movq	40(%rsp), %r15
	testq	%r12, %r12
	je	.LBB20af74d2_21
	leaq	64(%rbx), %r13
	jmp	.LBB20af74d2_16
	.p2align	4
.LBB20af74d2_20:
	addq	$72, %r13
	decq	%r12
	je	.LBB20af74d2_21
.LBB20af74d2_16:
	movq	-16(%r13), %r14
	movq	(%r13), %rbp
	cmpq	$0, -24(%r13)
	je	.LBB20af74d2_18
	movq	-40(%r13), %rdi
	callq	rattle_dealloc@PLT
.LBB20af74d2_18:
	testq	%rbp, %rbp
	je	.LBB20af74d2_20
	movq	%r14, %rdi
	callq	rattle_dealloc@PLT
	jmp	.LBB20af74d2_20
.LBB20af74d2_21:
	testq	%r15, %r15
	je	.LBB20af74d2_23
	movq	%rbx, %rdi
	callq	rattle_dealloc@PLT
.LBB20af74d2_23:
	xorl	%eax, %eax
	xorl	%ebx, %ebx
	jmp	.LBB20af74d2_24
.LBB20af74d2_12:
	movb	$1, %al
	cmpq	$0, 48(%rsp)
	je	.LBB20af74d2_24
	movq	%r14, %rdi
	callq	rattle_dealloc@PLT
	movb	$1, %al
.LBB20af74d2_24:
	movl	%ebx, %edx
	addq	$56, %rsp
	popq	%rbx
	popq	%r12
	popq	%r13
	popq	%r14
	popq	%r15
	popq	%rbp
	retq
.Lfunc_end20af74d2:
	.size	hll_coupons.filling.put_by_cycles.8a2f8b2564a2651f, .Lfunc_end20af74d2-hll_coupons.filling.put_by_cycles.8a2f8b2564a2651f

	.section	.text.hll_coupons.filling.put_absent.8a2f8b2564a2651f,"ax",@progbits
	.p2align	4
	.type	hll_coupons.filling.put_absent.8a2f8b2564a2651f,@function
hll_coupons.filling.put_absent.8a2f8b2564a2651f:
	pushq	%rbp
	pushq	%r15
	pushq	%r14
	pushq	%r13
	pushq	%r12
	pushq	%rbx
	subq	$72, %rsp
	movl	%ecx, %r13d
	movl	%edx, %r10d
	movq	%rsi, %r8
	movq	%rdi, %r14
	movzbl	16(%rdi), %r11d
	testb	%r11b, %r11b
	je	.LBB02310beb_1
	movq	24(%r14), %r12
	movq	32(%r14), %r9
	jmp	.LBB02310beb_3
.LBB02310beb_1:
	leaq	20(%r14), %r12
	movl	$8, %r9d
.LBB02310beb_3:
	movq	(%r14), %rbp
	movl	%r13d, %ebx
	andl	$67108863, %ebx
	testb	$1, %r10b
	movl	%r13d, %r15d
	cmovnel	%ebx, %r15d
	xorps	%xmm0, %xmm0
	movaps	%xmm0, 32(%rsp)
	movq	16(%r8), %rsi
	testq	%rsi, %rsi
	je	.LBB02310beb_5
	movq	8(%r8), %rdi
	movq	%rbp, %rdx
	movl	%r15d, %ecx
	movl	%r13d, 28(%rsp)
	movq	%r8, %r13
	movq	%r14, 64(%rsp)
	movl	%r11d, %r14d
	movq	%rbp, 48(%rsp)
	movl	%r10d, %ebp
	movq	%r9, 56(%rsp)
	callq	hll_coupons.long_searches.LongSearches.end_by_cycle.309f015d8caa795c
	movq	56(%rsp), %r9
	movl	%ebp, %r10d
	movq	48(%rsp), %rbp
	movl	%r14d, %r11d
	movq	64(%rsp), %r14
	movq	%r13, %r8
	movl	28(%rsp), %r13d
	cmpb	$1, %al
	je	.LBB02310beb_16
.LBB02310beb_5:
	cmpq	$64, %r9
	movl	$64, %eax
	cmovbq	%r9, %rax
	movl	%ebp, %ecx
	shrl	%cl, %ebx
	movq	$-1, %rsi
	shlq	%cl, %rsi
	testq	%r9, %r9
	je	.LBB02310beb_13
	orl	$1, %ebx
	notq	%rsi
	movl	%esi, %edx
	andl	%r15d, %edx
	movq	%rax, %rcx
	testb	$1, %r10b
	je	.LBB02310beb_7
	.p2align	4
.LBB02310beb_10:
	movl	(%r12,%rdx,4), %edi
	testl	%edi, %edi
	je	.LBB02310beb_16
	andl	$67108863, %edi
	cmpl	%r15d, %edi
	je	.LBB02310beb_16
	addq	%rbx, %rdx
	andq	%rsi, %rdx
	decq	%rcx
	jne	.LBB02310beb_10
	jmp	.LBB02310beb_13
	.p2align	4
.LBB02310beb_7:
	movl	(%r12,%rdx,4), %edi
	testl	%edi, %edi
	je	.LBB02310beb_16
	cmpl	%r15d, %edi
	je	.LBB02310beb_16
	addq	%rbx, %rdx
	andq	%rsi, %rdx
	decq	%rcx
	jne	.LBB02310beb_7
.LBB02310beb_13:
	movq	%rax, 8(%rsp)
	movl	%r15d, (%rsp)
	movzbl	%r10b, %edx
	leaq	32(%rsp), %rdi
	movq	%r8, %rsi
	movq	%rbp, %rcx
	movq	%r8, %rbx
	movq	%r12, %r8
	callq	hll_coupons.long_searches.LongSearches.end_of_long.8a2f8b2564a2651f
	movzbl	32(%rsp), %eax
	testb	%al, %al
	je	.LBB02310beb_15
	movzbl	33(%rsp), %edx
	jmp	.LBB02310beb_25
.LBB02310beb_15:
	movq	40(%rsp), %rdx
	movzbl	16(%r14), %r11d
	movq	%rbx, %r8
.LBB02310beb_16:
	testb	%r11b, %r11b
	je	.LBB02310beb_17
	movq	24(%r14), %rax
	movl	%r13d, (%rax,%rdx,4)
	incq	8(%r14)
	movq	16(%r8), %rdi
	testq	%rdi, %rdi
	jne	.LBB02310beb_20
	jmp	.LBB02310beb_24
.LBB02310beb_17:
	movl	%r13d, 20(%r14,%rdx,4)
	incq	8(%r14)
	movq	16(%r8), %rdi
	testq	%rdi, %rdi
	je	.LBB02310beb_24
.LBB02310beb_20:
	movq	8(%r8), %r8
	jmp	.LBB02310beb_21
	.p2align	4
.LBB02310beb_23:
	addq	$72, %r8
	decq	%rdi
	je	.LBB02310beb_24
.LBB02310beb_21:
	movzbl	(%r8), %ecx
	movq	16(%r8), %rsi
	movq	$-1, %rax
	shlq	%cl, %rax
	imulq	%rdx, %rsi
	notq	%rax
	andq	%rsi, %rax
	movq	24(%r8), %r11
	movq	48(%r8), %r9
	movq	%rax, %rsi
	shrq	$6, %rsi
	movq	$-2, %rbx
	movl	%eax, %ecx
	rolq	%cl, %rbx
	movq	$-2, %r10
	andq	%rbx, (%r11,%rsi,8)
	jne	.LBB02310beb_23
	movl	%esi, %ecx
	rolq	%cl, %r10
	shrq	$12, %rax
	andq	%r10, (%r9,%rax,8)
	jmp	.LBB02310beb_23
.LBB02310beb_24:
	xorl	%eax, %eax
	xorl	%edx, %edx
.LBB02310beb_25:
	addq	$72, %rsp
	popq	%rbx
	popq	%r12
	popq	%r13
	popq	%r14
	popq	%r15
	popq	%rbp
	retq
.Lfunc_end02310beb:
	.size	hll_coupons.filling.put_absent.8a2f8b2564a2651f, .Lfunc_end02310beb-hll_coupons.filling.put_absent.8a2f8b2564a2651f

	.section	.text.hll_coupons.long_searches.LongSearches.end_by_cycle.309f015d8caa795c,"ax",@progbits
	.p2align	4
	.type	hll_coupons.long_searches.LongSearches.end_by_cycle.309f015d8caa795c,@function
hll_coupons.long_searches.LongSearches.end_by_cycle.309f015d8caa795c:
	pushq	%r14
	pushq	%rbx
	pushq	%rax
	movl	%ecx, %eax
	movq	%rdx, %rcx
	movl	%eax, %ebx
	andl	$67108863, %ebx
	shrl	%cl, %ebx
	testq	%rsi, %rsi
	je	.LBB39fb2916_4
	orl	$1, %ebx
	addq	$56, %rdi
	.p2align	4
.LBB39fb2916_2:
	cmpl	%ebx, -48(%rdi)
	je	.LBB39fb2916_6
	addq	$72, %rdi
	decq	%rsi
	jne	.LBB39fb2916_2
.LBB39fb2916_4:
	xorl	%edx, %edx
	xorl	%eax, %eax
	addq	$8, %rsp
	popq	%rbx
	popq	%r14
	retq
.LBB39fb2916_6:
	movzbl	-56(%rdi), %ecx
	movl	%eax, %r8d
	movq	$-1, %r14
	shlq	%cl, %r14
	imulq	-40(%rdi), %r8
	notq	%r14
	andq	%r14, %r8
	movq	-32(%rdi), %rax
	movq	-24(%rdi), %rsi
	movq	-8(%rdi), %rdx
	movq	(%rdi), %rcx
	movq	%rax, %rdi
	callq	hll_coupons.cycle.next_round
	movl	%ebx, %ecx
	imulq	%rdx, %rcx
	andq	%r14, %rcx
	xorl	%edx, %edx
	cmpb	$1, %al
	sete	%al
	cmoveq	%rcx, %rdx
	addq	$8, %rsp
	popq	%rbx
	popq	%r14
	retq
.Lfunc_end39fb2916:
	.size	hll_coupons.long_searches.LongSearches.end_by_cycle.309f015d8caa795c, .Lfunc_end39fb2916-hll_coupons.long_searches.LongSearches.end_by_cycle.309f015d8caa795c

	.section	.text.hll_coupons.cycle.next_round,"ax",@progbits
	.p2align	4
	.type	hll_coupons.cycle.next_round,@function
hll_coupons.cycle.next_round:
	movq	%r8, %r9
	movq	%rcx, %rax
	shrq	$6, %r8
	cmpq	%rsi, %r8
	jne	.LBB1fc758d1_1
.LBB1fc758d1_9:
	testq	%rsi, %rsi
	je	.LBB1fc758d1_10
	movq	(%rdi), %rcx
	testq	%rcx, %rcx
	je	.LBB1fc758d1_13
	rep		bsfq	%rcx, %rdx
	movb	$1, %al
	retq
.LBB1fc758d1_1:
	movq	(%rdi,%r8,8), %r10
	movl	%r9d, %ecx
	shrq	%cl, %r10
	shlq	%cl, %r10
	testq	%r10, %r10
	je	.LBB1fc758d1_3
	andq	$-64, %r9
	rep		bsfq	%r10, %rdx
	orq	%r9, %rdx
	movb	$1, %al
	retq
.LBB1fc758d1_3:
	incq	%r8
	movq	%r8, %r9
	shrq	$6, %r9
	cmpq	%rax, %r9
	je	.LBB1fc758d1_9
	movq	(%rdx,%r9,8), %r10
	movl	%r8d, %ecx
	shrq	%cl, %r10
	shlq	%cl, %r10
	testq	%r10, %r10
	je	.LBB1fc758d1_5
	andq	$-64, %r8
	rep		bsfq	%r10, %rdx
	orq	%r8, %rdx
	jmp	.LBB1fc758d1_19
.LBB1fc758d1_13:
	testq	%rax, %rax
	je	.LBB1fc758d1_10
	movq	(%rdx), %rcx
	andq	$-2, %rcx
	je	.LBB1fc758d1_15
	rep		bsfq	%rcx, %rdx
	jmp	.LBB1fc758d1_19
.LBB1fc758d1_5:
	movq	%r9, %rcx
	shlq	$6, %rcx
	incq	%r9
	.p2align	4
.LBB1fc758d1_6:
	cmpq	%rax, %r9
	jae	.LBB1fc758d1_9
	movq	(%rdx,%r9,8), %r8
	addq	$64, %rcx
	incq	%r9
	testq	%r8, %r8
	je	.LBB1fc758d1_6
	rep		bsfq	%r8, %rdx
	addq	%rcx, %rdx
	jmp	.LBB1fc758d1_19
.LBB1fc758d1_15:
	movl	$1, %esi
	xorl	%ecx, %ecx
	.p2align	4
.LBB1fc758d1_16:
	cmpq	%rsi, %rax
	je	.LBB1fc758d1_10
	movq	(%rdx,%rsi,8), %r8
	incq	%rsi
	addq	$-64, %rcx
	testq	%r8, %r8
	je	.LBB1fc758d1_16
	rep		bsfq	%r8, %rdx
	subq	%rcx, %rdx
.LBB1fc758d1_19:
	movl	$64, %eax
	rep		bsfq	(%rdi,%rdx,8), %rax
	shlq	$6, %rdx
	addq	%rax, %rdx
	movb	$1, %al
	retq
.LBB1fc758d1_10:
	xorl	%eax, %eax
	xorl	%edx, %edx
	retq
.Lfunc_end1fc758d1:
	.size	hll_coupons.cycle.next_round, .Lfunc_end1fc758d1-hll_coupons.cycle.next_round

	.section	.text.hll_coupons.long_searches.LongSearches.end_of_long.8a2f8b2564a2651f,"ax",@progbits
	.p2align	4
	.type	hll_coupons.long_searches.LongSearches.end_of_long.8a2f8b2564a2651f,@function
hll_coupons.long_searches.LongSearches.end_of_long.8a2f8b2564a2651f:
	pushq	%rbp
	pushq	%r15
	pushq	%r14
	pushq	%r13
	pushq	%r12
	pushq	%rbx
	subq	$88, %rsp
	movq	%r9, %r13
	movq	%r8, %rbx
	movq	%rcx, %r15
	movq	%rsi, %r12
	movq	%rdi, %r14
	movl	144(%rsp), %ebp
	movq	152(%rsp), %rax
	xorps	%xmm0, %xmm0
	movaps	%xmm0, 48(%rsp)
	movq	$0, 64(%rsp)
	movq	%rax, (%rsp)
	leaq	48(%rsp), %rdi
	movl	%edx, %esi
	movq	%rcx, %rdx
	movq	%r8, %rcx
	movq	%r9, %r8
	movl	%ebp, %r9d
	callq	hll_coupons.search.search_on
	cmpb	$1, 48(%rsp)
	jne	.LBBa0bdc0ae_35
	movq	64(%rsp), %rax
	addq	(%r12), %rax
	movq	56(%rsp), %r9
	movq	$-1, %rdx
	cmovaeq	%rax, %rdx
	movq	%rdx, (%r12)
	cmpq	$6, %r15
	setae	%al
	movl	$4, %esi
	movl	%r15d, %ecx
	shlq	%cl, %rsi
	cmpq	%rdx, %rsi
	setbe	%cl
	testb	%cl, %al
	je	.LBBa0bdc0ae_26
	movq	%r14, 40(%rsp)
	andl	$67108863, %ebp
	movl	%r15d, %ecx
	shrl	%cl, %ebp
	movq	%r12, 80(%rsp)
	movq	$0, (%r12)
	movq	%r13, %rax
	shrq	$6, %rax
	movq	%r9, 32(%rsp)
	je	.LBBa0bdc0ae_3
	movq	%r15, 16(%rsp)
	movq	%rax, %r15
	leaq	(,%rax,8), %r14
	movl	$8, %esi
	movq	%r14, %rdi
	callq	rattle_alloc@PLT
	testb	$1, %al
	je	.LBBa0bdc0ae_33
	movq	%rdx, %r12
	cmpq	$1, %r15
	movq	%r15, 24(%rsp)
	jne	.LBBa0bdc0ae_7
	xorl	%r14d, %r14d
	jmp	.LBBa0bdc0ae_8
.LBBa0bdc0ae_3:
	movq	%rax, 24(%rsp)
	leaq	8(%rsp), %r12
	xorl	%r14d, %r14d
	orl	$1, %ebp
	testq	%r13, %r13
	jne	.LBBa0bdc0ae_10
	jmp	.LBBa0bdc0ae_14
.LBBa0bdc0ae_7:
	addq	$-8, %r14
	movq	%r12, %rdi
	xorl	%esi, %esi
	movq	%r14, %rdx
	callq	memset@PLT
	leaq	-1(%r15), %r14
.LBBa0bdc0ae_8:
	movq	$0, (%r12,%r14,8)
	incq	%r14
	movq	16(%rsp), %r15
	orl	$1, %ebp
	testq	%r13, %r13
	je	.LBBa0bdc0ae_14
.LBBa0bdc0ae_10:
	movq	$-1, %rax
	movl	%r15d, %ecx
	shlq	%cl, %rax
	movl	%ebp, %edx
	notq	%rax
	xorl	%ecx, %ecx
	xorl	%esi, %esi
	jmp	.LBBa0bdc0ae_11
	.p2align	4
.LBBa0bdc0ae_13:
	addq	%rdx, %rsi
	andq	%rax, %rsi
	incq	%rcx
	cmpq	%rcx, %r13
	je	.LBBa0bdc0ae_14
.LBBa0bdc0ae_11:
	cmpl	$0, (%rbx,%rsi,4)
	jne	.LBBa0bdc0ae_13
	movq	%rcx, %rdi
	movl	$1, %r8d
	shlq	%cl, %r8
	shrq	$6, %rdi
	orq	%r8, (%r12,%rdi,8)
	jmp	.LBBa0bdc0ae_13
.LBBa0bdc0ae_14:
	movq	%r14, %r13
	shrq	$6, %r13
	leaq	8(,%r13,8), %rbx
	movl	$8, %esi
	movq	%rbx, %rdi
	callq	rattle_alloc@PLT
	testb	$1, %al
	je	.LBBa0bdc0ae_27
	testq	%r13, %r13
	je	.LBBa0bdc0ae_17
	addq	$-8, %rbx
	movq	%rdx, %rdi
	xorl	%esi, %esi
	movq	%rdx, 16(%rsp)
	movq	%rbx, %rdx
	callq	memset@PLT
	movq	16(%rsp), %rdx
.LBBa0bdc0ae_17:
	movq	$0, (%rdx,%r13,8)
	testq	%r14, %r14
	movq	32(%rsp), %r9
	je	.LBBa0bdc0ae_22
	xorl	%ecx, %ecx
	jmp	.LBBa0bdc0ae_19
	.p2align	4
.LBBa0bdc0ae_21:
	incq	%rcx
	cmpq	%rcx, %r14
	je	.LBBa0bdc0ae_22
.LBBa0bdc0ae_19:
	cmpq	$0, (%r12,%rcx,8)
	je	.LBBa0bdc0ae_21
	movq	%rcx, %rax
	shrq	$3, %rax
	movabsq	$1152921504606846968, %rsi
	movl	$1, %edi
	shlq	%cl, %rdi
	andq	%rax, %rsi
	orq	%rdi, (%rdx,%rsi)
	jmp	.LBBa0bdc0ae_21
.LBBa0bdc0ae_27:
	cmpq	$0, 24(%rsp)
	je	.LBBa0bdc0ae_33
	movq	%r12, %rdi
.LBBa0bdc0ae_32:
	callq	rattle_dealloc@PLT
.LBBa0bdc0ae_33:
	movq	40(%rsp), %rax
	movw	$3073, (%rax)
	movq	$0, 8(%rax)
	jmp	.LBBa0bdc0ae_34
.LBBa0bdc0ae_22:
	movq	80(%rsp), %rbx
	movq	16(%rbx), %rax
	cmpq	%rax, 24(%rbx)
	je	.LBBa0bdc0ae_23
.LBBa0bdc0ae_25:
	incq	%r13
	movl	$2, %ecx
	movl	$2, %esi
	subl	%ebp, %esi
	movl	%esi, %edi
	imull	%ebp, %edi
	movl	$2, %r8d
	subl	%edi, %r8d
	imull	%esi, %r8d
	movl	%r8d, %esi
	imull	%ebp, %esi
	movl	$2, %edi
	subl	%esi, %edi
	imull	%r8d, %edi
	movl	%edi, %esi
	imull	%ebp, %esi
	movl	$2, %r8d
	subl	%esi, %r8d
	imull	%edi, %r8d
	movl	%r8d, %esi
	imull	%ebp, %esi
	subl	%esi, %ecx
	imull	%r8d, %ecx
	movq	8(%rbx), %rsi
	leaq	(%rax,%rax,8), %rdi
	movq	%r15, (%rsi,%rdi,8)
	movl	%ebp, 8(%rsi,%rdi,8)
	movl	$0, 12(%rsi,%rdi,8)
	movq	%rcx, 16(%rsi,%rdi,8)
	movq	%r12, 24(%rsi,%rdi,8)
	movq	%r14, 32(%rsi,%rdi,8)
	movq	24(%rsp), %rcx
	movq	%rcx, 40(%rsi,%rdi,8)
	movq	%rdx, 48(%rsi,%rdi,8)
	movq	%r13, 56(%rsi,%rdi,8)
	movq	%r13, 64(%rsi,%rdi,8)
	incq	%rax
	movq	%rax, 16(%rbx)
	movq	40(%rsp), %r14
.LBBa0bdc0ae_26:
	movw	$0, (%r14)
	movq	%r9, 8(%r14)
.LBBa0bdc0ae_34:
	addq	$88, %rsp
	popq	%rbx
	popq	%r12
	popq	%r13
	popq	%r14
	popq	%r15
	popq	%rbp
	retq
.LBBa0bdc0ae_23:
	movq	%rdx, 16(%rsp)
	leaq	8(%rbx), %rdi
	callq	std_alloc.vec.Vec.grow_amortized.9979bc81490ca4ba
	testb	%al, %al
	je	.LBBa0bdc0ae_29
	movq	16(%rbx), %rax
	movq	16(%rsp), %rdx
	movq	32(%rsp), %r9
	jmp	.LBBa0bdc0ae_25
.LBBa0bdc0ae_29:
	cmpq	$0, 24(%rsp)
	je	.LBBa0bdc0ae_31
	movq	%r12, %rdi
	callq	rattle_dealloc@PLT
.LBBa0bdc0ae_31:
	movq	16(%rsp), %rdi
	jmp	.LBBa0bdc0ae_32
.LBBa0bdc0ae_35:
	ud2
.Lfunc_enda0bdc0ae:
	.size	hll_coupons.long_searches.LongSearches.end_of_long.8a2f8b2564a2651f, .Lfunc_enda0bdc0ae-hll_coupons.long_searches.LongSearches.end_of_long.8a2f8b2564a2651f

	.section	.text.hll_coupons.search.search_on,"ax",@progbits
	.p2align	4
	.type	hll_coupons.search.search_on,@function
hll_coupons.search.search_on:
	pushq	%rbx
	movq	%rcx, %rax
	movq	%rdx, %rcx
	movl	%r9d, %r10d
	andl	$67108863, %r10d
	shrl	%cl, %r10d
	movq	16(%rsp), %rdx
	movq	$-1, %r11
	shlq	%cl, %r11
	cmpq	%r8, %rdx
	jae	.LBB9360943f_11
	orl	$1, %r10d
	notq	%r11
	movq	%rdx, %rbx
	imulq	%r10, %rbx
	movl	%r9d, %ecx
	addq	%rbx, %rcx
	andq	%r11, %rcx
	testb	$1, %sil
	je	.LBB9360943f_2
	movq	%rdx, %rsi
	.p2align	4
.LBB9360943f_7:
	movl	(%rax,%rcx,4), %ebx
	testl	%ebx, %ebx
	je	.LBB9360943f_5
	andl	$67108863, %ebx
	cmpl	%r9d, %ebx
	je	.LBB9360943f_5
	addq	%r10, %rcx
	incq	%rsi
	andq	%r11, %rcx
	cmpq	%rsi, %r8
	jne	.LBB9360943f_7
	jmp	.LBB9360943f_11
.LBB9360943f_2:
	movq	%rdx, %rsi
	.p2align	4
.LBB9360943f_3:
	movl	(%rax,%rcx,4), %ebx
	testl	%ebx, %ebx
	je	.LBB9360943f_5
	cmpl	%r9d, %ebx
	je	.LBB9360943f_5
	addq	%r10, %rcx
	incq	%rsi
	andq	%r11, %rcx
	cmpq	%rsi, %r8
	jne	.LBB9360943f_3
.LBB9360943f_11:
	xorps	%xmm0, %xmm0
	movups	%xmm0, (%rdi)
	movq	$0, 16(%rdi)
	popq	%rbx
	retq
.LBB9360943f_5:
	subq	%rdx, %rsi
	movq	$1, (%rdi)
	movq	%rcx, 8(%rdi)
	movq	%rsi, 16(%rdi)
	popq	%rbx
	retq
.Lfunc_end9360943f:
	.size	hll_coupons.search.search_on, .Lfunc_end9360943f-hll_coupons.search.search_on

	.section	.text.unlikely.std_alloc.vec.Vec.grow_amortized.9979bc81490ca4ba,"ax",@progbits
	.p2align	4
	.type	std_alloc.vec.Vec.grow_amortized.9979bc81490ca4ba,@function
std_alloc.vec.Vec.grow_amortized.9979bc81490ca4ba:
	movq	8(%rdi), %rax
	cmpq	$-1, %rax
	je	.LBB9d29b8bd_5
	pushq	%r14
	pushq	%rbx
	pushq	%rax
	movq	16(%rdi), %rcx
	cmpq	$4, %rax
	movl	$3, %ebx
	cmovaeq	%rax, %rbx
	incq	%rbx
	movq	%rcx, %rsi
	shrq	$62, %rsi
	leaq	(%rcx,%rcx), %rdx
	cmpq	%rdx, %rbx
	cmovaq	%rbx, %rdx
	testq	%rsi, %rsi
	cmoveq	%rdx, %rbx
	movabsq	$128102389400760775, %rsi
	cmpq	%rsi, %rbx
	ja	.LBB9d29b8bd_6
	testq	%rcx, %rcx
	je	.LBB9d29b8bd_8
	movq	%rdi, %r14
	movq	(%rdi), %rdi
	shlq	$3, %rax
	leaq	(%rax,%rax,8), %rsi
	leaq	(,%rbx,8), %rax
	leaq	(%rax,%rax,8), %rdx
	movl	$8, %ecx
	callq	rattle_realloc@PLT
	testb	$1, %al
	je	.LBB9d29b8bd_6
.LBB9d29b8bd_9:
	movq	%rdx, (%r14)
	movq	%rbx, 16(%r14)
	movb	$1, %al
	addq	$8, %rsp
	popq	%rbx
	popq	%r14
	retq
.LBB9d29b8bd_5:
	xorl	%eax, %eax
	retq
.LBB9d29b8bd_8:
	movq	%rdi, %r14
	shlq	$3, %rdx
	leaq	(%rdx,%rdx,8), %rdi
	movl	$8, %esi
	callq	rattle_alloc@PLT
	testb	$1, %al
	jne	.LBB9d29b8bd_9
.LBB9d29b8bd_6:
	xorl	%eax, %eax
	addq	$8, %rsp
	popq	%rbx
	popq	%r14
	retq
.Lfunc_end9d29b8bd:
	.size	std_alloc.vec.Vec.grow_amortized.9979bc81490ca4ba, .Lfunc_end9d29b8bd-std_alloc.vec.Vec.grow_amortized.9979bc81490ca4ba

	.section	.text.hll_coupons.aux_map_builder.has_mark.8a2f8b2564a2651f,"ax",@progbits
	.p2align	4
	.type	hll_coupons.aux_map_builder.has_mark.8a2f8b2564a2651f,@function
hll_coupons.aux_map_builder.has_mark.8a2f8b2564a2651f:
	pushq	%rbp
	pushq	%r15
	pushq	%r14
	pushq	%r13
	pushq	%r12
	pushq	%rbx
	pushq	%rax
	movl	%edx, %r14d
	movq	%rsi, %rbx
	cmpb	$1, (%rsi)
	jne	.LBBcf2f071a_2
	movq	8(%rbx), %rax
	movl	%r14d, %ecx
	shrl	$6, %r14d
	movq	(%rax,%r14,8), %rax
	btq	%rcx, %rax
	setb	%dl
	xorl	%eax, %eax
	jmp	.LBBcf2f071a_23
.LBBcf2f071a_2:
	movq	%rdi, %r15
	movzbl	(%rdi), %ecx
	movl	$1, %r13d
	shlq	%cl, %r13
	shrq	$6, %r13
	leaq	8(,%r13,8), %r12
	movl	$8, %esi
	movq	%r12, %rdi
	callq	rattle_alloc@PLT
	testb	$1, %al
	je	.LBBcf2f071a_3
	testq	%r13, %r13
	je	.LBBcf2f071a_6
	addq	$-8, %r12
	movq	%rdx, %rdi
	xorl	%esi, %esi
	movq	%rdx, %rbp
	movq	%r12, %rdx
	callq	memset@PLT
	movq	%rbp, %rdx
.LBBcf2f071a_6:
	movq	$0, (%rdx,%r13,8)
	cmpb	$0, 24(%r15)
	je	.LBBcf2f071a_7
	movq	40(%r15), %rax
	movq	32(%r15), %r15
	incq	%r13
	cmpq	$4, %rax
	jb	.LBBcf2f071a_16
	jmp	.LBBcf2f071a_11
.LBBcf2f071a_3:
	movb	$1, %al
	movb	$12, %dl
	jmp	.LBBcf2f071a_23
.LBBcf2f071a_7:
	addq	$28, %r15
	movl	$8, %eax
	incq	%r13
	cmpq	$4, %rax
	jae	.LBBcf2f071a_11
	.p2align	4
.LBBcf2f071a_16:
	testq	%rax, %rax
	je	.LBBcf2f071a_19
	decq	%rax
	movl	(%r15), %ecx
	addq	$4, %r15
	testq	%rcx, %rcx
	je	.LBBcf2f071a_16
	movl	%ecx, %esi
	shrl	$3, %esi
	movl	$1, %edi
	shlq	%cl, %rdi
	andl	$8388600, %esi
	orq	%rdi, (%rdx,%rsi)
	cmpq	$4, %rax
	jb	.LBBcf2f071a_16
	.p2align	4
.LBBcf2f071a_11:
	cmpl	$0, (%r15)
	jne	.LBBcf2f071a_16
	cmpl	$0, 4(%r15)
	jne	.LBBcf2f071a_16
	cmpl	$0, 8(%r15)
	jne	.LBBcf2f071a_16
	cmpl	$0, 12(%r15)
	jne	.LBBcf2f071a_16
	addq	$16, %r15
	addq	$-4, %rax
	cmpq	$3, %rax
	ja	.LBBcf2f071a_11
	jmp	.LBBcf2f071a_16
.LBBcf2f071a_19:
	movl	%r14d, %eax
	shrl	$6, %r14d
	movq	(%rdx,%r14,8), %rcx
	btq	%rax, %rcx
	setb	%bpl
	movzbl	(%rbx), %esi
	movq	8(%rbx), %rdi
	movq	24(%rbx), %rcx
	movq	$1, (%rbx)
	movq	%rdx, 8(%rbx)
	movq	%r13, 16(%rbx)
	movq	%r13, 24(%rbx)
	xorl	%eax, %eax
	cmpb	$1, %sil
	jne	.LBBcf2f071a_22
	testq	%rcx, %rcx
	je	.LBBcf2f071a_22
	callq	rattle_dealloc@PLT
	xorl	%eax, %eax
.LBBcf2f071a_22:
	movl	%ebp, %edx
.LBBcf2f071a_23:
	addq	$8, %rsp
	popq	%rbx
	popq	%r12
	popq	%r13
	popq	%r14
	popq	%r15
	popq	%rbp
	retq
.Lfunc_endcf2f071a:
	.size	hll_coupons.aux_map_builder.has_mark.8a2f8b2564a2651f, .Lfunc_endcf2f071a-hll_coupons.aux_map_builder.has_mark.8a2f8b2564a2651f

	.section	.text.hll_registers.exception_map.add_exception.8a2f8b2564a2651f,"ax",@progbits
	.p2align	4
	.type	hll_registers.exception_map.add_exception.8a2f8b2564a2651f,@function
hll_registers.exception_map.add_exception.8a2f8b2564a2651f:
	pushq	%rbp
	pushq	%r15
	pushq	%r14
	pushq	%r13
	pushq	%r12
	pushq	%rbx
	subq	$296, %rsp
	xorps	%xmm0, %xmm0
	movaps	%xmm0, 240(%rsp)
	movaps	%xmm0, 224(%rsp)
	movaps	%xmm0, 208(%rsp)
	movaps	%xmm0, 192(%rsp)
	movaps	%xmm0, 176(%rsp)
	movaps	%xmm0, 160(%rsp)
	movq	$0, 254(%rsp)
	cmpb	$1, (%rdi)
	jne	.LBB9118479f_2
	addq	$8, %rdi
	movzbl	%cl, %eax
	movl	%edx, %esi
	movl	%eax, %edx
	callq	hll_registers.exception_map.fill_value.8a2f8b2564a2651f
	movl	%edx, %ebx
	jmp	.LBB9118479f_46
.LBB9118479f_2:
	movl	$2, %r14d
	cmpb	$7, %sil
	movq	%rdi, 16(%rsp)
	jae	.LBB9118479f_3
.LBB9118479f_9:
	movl	%edx, 24(%rsp)
	movl	%esi, %r13d
	movl	%ecx, %ebp
	movl	$4, %r12d
	movl	%r14d, %ecx
	shlq	%cl, %r12
	movl	$4, %esi
	movq	%r12, %rdi
	callq	rattle_alloc@PLT
	movb	$12, %bl
	testb	$1, %al
	je	.LBB9118479f_27
	movq	%rdx, %r15
	movl	$1, %ebx
	movl	%r14d, %ecx
	shlq	%cl, %rbx
	leaq	-4(%r12), %rdx
	movq	%r15, %rdi
	xorl	%esi, %esi
	callq	memset@PLT
	movl	$0, -4(%r15,%r12)
	movl	$1, %eax
	movl	24(%rsp), %edx
	movl	%ebp, %ecx
	movl	%r13d, %esi
	jmp	.LBB9118479f_11
.LBB9118479f_3:
	cmpb	$10, %sil
	jae	.LBB9118479f_5
	xorl	%eax, %eax
	movl	$3, %r14d
	xorl	%r15d, %r15d
	xorl	%ebx, %ebx
.LBB9118479f_11:
	movb	%sil, 32(%rsp)
	movl	$0, 33(%rsp)
	movl	$0, 36(%rsp)
	movq	%r14, 40(%rsp)
	movq	$0, 48(%rsp)
	movl	%eax, 56(%rsp)
	movl	$0, 60(%rsp)
	movq	%r15, 64(%rsp)
	movq	%rbx, 72(%rsp)
	movq	%rbx, 80(%rsp)
	xorps	%xmm0, %xmm0
	movups	%xmm0, 88(%rsp)
	leaq	8(%rsp), %rax
	movq	%rax, 104(%rsp)
	movups	%xmm0, 112(%rsp)
	movups	%xmm0, 128(%rsp)
	movups	%xmm0, 144(%rsp)
	movzbl	%cl, %eax
	leaq	32(%rsp), %rdi
	movl	%edx, %esi
	movl	%eax, %edx
	callq	hll_registers.exception_map.fill_value.8a2f8b2564a2651f
	xorl	%ecx, %ecx
	testb	%al, %al
	movzbl	%dl, %ebx
	cmovel	%ecx, %ebx
	je	.LBB9118479f_28
	cmpb	$0, 56(%rsp)
	je	.LBB9118479f_15
	cmpq	$0, 80(%rsp)
	je	.LBB9118479f_15
	movq	64(%rsp), %rdi
	callq	rattle_dealloc@PLT
.LBB9118479f_15:
	movq	104(%rsp), %r14
	movq	112(%rsp), %r13
	movq	120(%rsp), %rax
	movq	%rax, 16(%rsp)
	testq	%r13, %r13
	je	.LBB9118479f_22
	leaq	64(%r14), %rbp
	jmp	.LBB9118479f_17
	.p2align	4
.LBB9118479f_21:
	addq	$72, %rbp
	decq	%r13
	je	.LBB9118479f_22
.LBB9118479f_17:
	movq	-16(%rbp), %r15
	movq	(%rbp), %r12
	cmpq	$0, -24(%rbp)
	je	.LBB9118479f_19
	movq	-40(%rbp), %rdi
	callq	rattle_dealloc@PLT
.LBB9118479f_19:
	testq	%r12, %r12
	je	.LBB9118479f_21
	movq	%r15, %rdi
	callq	rattle_dealloc@PLT
	jmp	.LBB9118479f_21
.LBB9118479f_22:
	cmpq	$0, 16(%rsp)
	je	.LBB9118479f_24
	movq	%r14, %rdi
	callq	rattle_dealloc@PLT
.LBB9118479f_24:
	cmpb	$1, 128(%rsp)
	jne	.LBB9118479f_27
	cmpq	$0, 152(%rsp)
	je	.LBB9118479f_27
	movq	136(%rsp), %rdi
	callq	rattle_dealloc@PLT
.LBB9118479f_27:
	movb	$1, %al
	jmp	.LBB9118479f_46
.LBB9118479f_5:
	movl	$4, %r14d
	cmpb	$12, %sil
	jb	.LBB9118479f_9
	movl	$5, %r14d
	cmpb	$14, %sil
	jb	.LBB9118479f_9
	movb	$12, %bl
	cmpb	$68, %sil
	ja	.LBB9118479f_27
	movzbl	%sil, %r14d
	addq	$-8, %r14
	jmp	.LBB9118479f_9
.LBB9118479f_28:
	leaq	136(%rsp), %rcx
	movzbl	128(%rsp), %eax
	movups	32(%rsp), %xmm0
	movups	48(%rsp), %xmm1
	movups	64(%rsp), %xmm2
	movups	80(%rsp), %xmm3
	movups	%xmm0, 166(%rsp)
	movups	%xmm1, 182(%rsp)
	movups	%xmm2, 198(%rsp)
	movups	%xmm3, 214(%rsp)
	movups	96(%rsp), %xmm0
	movups	%xmm0, 230(%rsp)
	movups	112(%rsp), %xmm0
	movups	%xmm0, 246(%rsp)
	movups	(%rcx), %xmm0
	movaps	%xmm0, 272(%rsp)
	movq	16(%rcx), %rcx
	movq	%rcx, 288(%rsp)
	movq	16(%rsp), %rsi
	movzbl	(%rsi), %r8d
	movzbl	32(%rsi), %edx
	movq	40(%rsi), %rdi
	movq	56(%rsi), %rcx
	movq	80(%rsi), %rbx
	movq	88(%rsi), %r14
	movq	96(%rsi), %r13
	movzbl	104(%rsi), %r11d
	movq	112(%rsi), %r9
	movq	128(%rsi), %r10
	movq	$1, (%rsi)
	movups	166(%rsp), %xmm0
	movups	182(%rsp), %xmm1
	movups	198(%rsp), %xmm2
	movups	214(%rsp), %xmm3
	movups	%xmm0, 8(%rsi)
	movups	%xmm1, 24(%rsi)
	movups	%xmm2, 40(%rsi)
	movups	%xmm3, 56(%rsi)
	movups	230(%rsp), %xmm0
	movups	246(%rsp), %xmm1
	movups	%xmm0, 72(%rsi)
	movups	%xmm1, 88(%rsi)
	movq	%rax, 104(%rsi)
	movq	288(%rsp), %rax
	movq	%rax, 128(%rsi)
	movaps	272(%rsp), %xmm0
	movups	%xmm0, 112(%rsi)
	cmpb	$1, %r8b
	jne	.LBB9118479f_44
	movb	%r11b, 7(%rsp)
	movq	%r10, 24(%rsp)
	movq	%r9, 16(%rsp)
	testb	%dl, %dl
	je	.LBB9118479f_32
	testq	%rcx, %rcx
	je	.LBB9118479f_32
	callq	rattle_dealloc@PLT
.LBB9118479f_32:
	testq	%r14, %r14
	je	.LBB9118479f_39
	leaq	64(%rbx), %r12
	jmp	.LBB9118479f_34
	.p2align	4
.LBB9118479f_38:
	addq	$72, %r12
	decq	%r14
	je	.LBB9118479f_39
.LBB9118479f_34:
	movq	-16(%r12), %r15
	movq	(%r12), %rbp
	cmpq	$0, -24(%r12)
	je	.LBB9118479f_36
	movq	-40(%r12), %rdi
	callq	rattle_dealloc@PLT
.LBB9118479f_36:
	testq	%rbp, %rbp
	je	.LBB9118479f_38
	movq	%r15, %rdi
	callq	rattle_dealloc@PLT
	jmp	.LBB9118479f_38
.LBB9118479f_39:
	testq	%r13, %r13
	je	.LBB9118479f_41
	movq	%rbx, %rdi
	callq	rattle_dealloc@PLT
.LBB9118479f_41:
	xorl	%ebx, %ebx
	cmpb	$1, 7(%rsp)
	movq	16(%rsp), %rdi
	movq	24(%rsp), %rcx
	jne	.LBB9118479f_45
	movl	$0, %eax
	testq	%rcx, %rcx
	je	.LBB9118479f_46
	callq	rattle_dealloc@PLT
.LBB9118479f_44:
	xorl	%ebx, %ebx
.LBB9118479f_45:
	xorl	%eax, %eax
.LBB9118479f_46:
	movl	%ebx, %edx
	addq	$296, %rsp
	popq	%rbx
	popq	%r12
	popq	%r13
	popq	%r14
	popq	%r15
	popq	%rbp
	retq
.Lfunc_end9118479f:
	.size	hll_registers.exception_map.add_exception.8a2f8b2564a2651f, .Lfunc_end9118479f-hll_registers.exception_map.add_exception.8a2f8b2564a2651f

	.section	.text.hll_registers.exception_map.fill_value.8a2f8b2564a2651f,"ax",@progbits
	.p2align	4
	.type	hll_registers.exception_map.fill_value.8a2f8b2564a2651f,@function
hll_registers.exception_map.fill_value.8a2f8b2564a2651f:
	pushq	%rbp
	pushq	%r15
	pushq	%r14
	pushq	%r13
	pushq	%r12
	pushq	%rbx
	subq	$24, %rsp
	movl	%edx, %eax
	movl	%esi, %ebx
	movq	%rdi, %r14
	shll	$26, %eax
	movl	%esi, %edx
	andl	$67108863, %edx
	orl	%edx, %eax
	movq	8(%rdi), %rcx
	movl	$3, %esi
	shlq	%cl, %rsi
	addq	$8, %rdi
	movq	16(%r14), %r8
	leaq	4(,%r8,4), %r8
	cmpq	%r8, %rsi
	jae	.LBBa8f67c1c_11
	movl	%eax, %esi
	callq	hll_coupons.aux_map.put_growing.8a2f8b2564a2651f
	testb	%al, %al
	je	.LBBa8f67c1c_2
	movb	$1, %al
	jmp	.LBBa8f67c1c_29
.LBBa8f67c1c_11:
	cmpq	$0, 80(%r14)
	je	.LBBa8f67c1c_12
.LBBa8f67c1c_20:
	leaq	64(%r14), %rsi
	movl	$1, %edx
	movl	%eax, %ecx
	callq	hll_coupons.filling.put_absent.8a2f8b2564a2651f
	testb	%al, %al
	setne	%al
	jne	.LBBa8f67c1c_29
	cmpb	$1, 96(%r14)
	jne	.LBBa8f67c1c_28
.LBBa8f67c1c_27:
	movq	104(%r14), %rdx
	movl	%ebx, %esi
	shrl	$6, %esi
	movl	$1, %edi
	movl	%ebx, %ecx
	shlq	%cl, %rdi
	orq	%rdi, (%rdx,%rsi,8)
.LBBa8f67c1c_28:
	xorl	%edx, %edx
.LBBa8f67c1c_29:
	addq	$24, %rsp
	popq	%rbx
	popq	%r12
	popq	%r13
	popq	%r14
	popq	%r15
	popq	%rbp
	retq
.LBBa8f67c1c_2:
	movq	$0, 64(%r14)
	movq	80(%r14), %r12
	testq	%r12, %r12
	je	.LBBa8f67c1c_25
	leaq	80(%r14), %rax
	movq	72(%r14), %rdx
	movq	88(%r14), %rcx
	movq	%rcx, 16(%rsp)
	xorps	%xmm0, %xmm0
	movups	%xmm0, (%rax)
	movq	%rdx, 8(%rsp)
	leaq	64(%rdx), %r13
	jmp	.LBBa8f67c1c_4
	.p2align	4
.LBBa8f67c1c_8:
	addq	$72, %r13
	decq	%r12
	je	.LBBa8f67c1c_9
.LBBa8f67c1c_4:
	movq	-16(%r13), %r15
	movq	(%r13), %rbp
	cmpq	$0, -24(%r13)
	je	.LBBa8f67c1c_6
	movq	-40(%r13), %rdi
	callq	rattle_dealloc@PLT
.LBBa8f67c1c_6:
	testq	%rbp, %rbp
	je	.LBBa8f67c1c_8
	movq	%r15, %rdi
	callq	rattle_dealloc@PLT
	jmp	.LBBa8f67c1c_8
.LBBa8f67c1c_12:
	movzbl	24(%r14), %esi
	testb	%sil, %sil
	je	.LBBa8f67c1c_13
	movq	40(%r14), %r9
	cmpq	$64, %r9
	movl	$64, %r8d
	cmovbq	%r9, %r8
	testq	%r9, %r9
	je	.LBBa8f67c1c_20
	movq	32(%r14), %r9
	jmp	.LBBa8f67c1c_16
.LBBa8f67c1c_9:
	movq	8(%rsp), %rax
	movq	%rax, 72(%r14)
	movq	$0, 80(%r14)
	movq	16(%rsp), %rax
	movq	%rax, 88(%r14)
.LBBa8f67c1c_25:
	xorl	%eax, %eax
	cmpb	$1, 96(%r14)
	je	.LBBa8f67c1c_27
	jmp	.LBBa8f67c1c_28
.LBBa8f67c1c_13:
	leaq	28(%r14), %r9
	movl	$8, %r8d
.LBBa8f67c1c_16:
	movl	%edx, %r10d
	shrl	%cl, %r10d
	movq	$-1, %r11
	shlq	%cl, %r11
	orl	$1, %r10d
	notq	%r11
	movl	%r11d, %ecx
	andl	%edx, %ecx
	.p2align	4
.LBBa8f67c1c_17:
	movl	(%r9,%rcx,4), %ebp
	testl	%ebp, %ebp
	je	.LBBa8f67c1c_21
	andl	$67108863, %ebp
	cmpl	%edx, %ebp
	je	.LBBa8f67c1c_21
	addq	%r10, %rcx
	andq	%r11, %rcx
	decq	%r8
	jne	.LBBa8f67c1c_17
	jmp	.LBBa8f67c1c_20
.LBBa8f67c1c_21:
	testb	%sil, %sil
	je	.LBBa8f67c1c_22
	movq	32(%r14), %rdx
	movl	%eax, (%rdx,%rcx,4)
	jmp	.LBBa8f67c1c_24
.LBBa8f67c1c_22:
	movl	%eax, 28(%r14,%rcx,4)
.LBBa8f67c1c_24:
	incq	16(%r14)
	xorl	%eax, %eax
	cmpb	$1, 96(%r14)
	je	.LBBa8f67c1c_27
	jmp	.LBBa8f67c1c_28
.Lfunc_enda8f67c1c:
	.size	hll_registers.exception_map.fill_value.8a2f8b2564a2651f, .Lfunc_enda8f67c1c-hll_registers.exception_map.fill_value.8a2f8b2564a2651f

	.section	.text.hll_coupons.aux_map.put_growing.8a2f8b2564a2651f,"ax",@progbits
	.p2align	4
	.type	hll_coupons.aux_map.put_growing.8a2f8b2564a2651f,@function
hll_coupons.aux_map.put_growing.8a2f8b2564a2651f:
	pushq	%rbp
	pushq	%r15
	pushq	%r14
	pushq	%r13
	pushq	%r12
	pushq	%rbx
	subq	$88, %rsp
	movq	$0, 72(%rsp)
	movq	(%rdi), %rbx
	incq	%rbx
	xorl	%eax, %eax
	movl	$0, %r15d
	movl	$0, %r8d
	movl	$0, %r12d
	cmpq	$3, %rbx
	jne	.LBBe5bae9e1_3
.LBBe5bae9e1_1:
	movq	%rbx, 24(%rsp)
	movq	$0, 32(%rsp)
	movl	%eax, 40(%rsp)
	movl	$0, 44(%rsp)
	movq	%r15, 48(%rsp)
	movq	%r8, 56(%rsp)
	movq	%r12, 64(%rsp)
	movl	$0, 72(%rsp)
	movzbl	16(%rdi), %eax
	testb	%al, %al
	je	.LBBe5bae9e1_7
	movq	24(%rdi), %rdx
	movq	32(%rdi), %r9
	jmp	.LBBe5bae9e1_8
.LBBe5bae9e1_3:
	movl	$1, %r12d
	movl	%ebx, %ecx
	shlq	%cl, %r12
	movb	$1, %al
	movb	$12, %dl
	cmpq	$60, %rbx
	ja	.LBBe5bae9e1_55
	movl	%esi, %ebp
	movq	%rdi, %r13
	movl	$4, %r14d
	movl	%ebx, %ecx
	shlq	%cl, %r14
	movl	$4, %esi
	movq	%r14, %rdi
	callq	rattle_alloc@PLT
	movq	%rax, %rcx
	movb	$1, %al
	movq	%rdx, %r15
	movb	$12, %dl
	testb	$1, %cl
	je	.LBBe5bae9e1_55
	testq	%rbx, %rbx
	je	.LBBe5bae9e1_65
	addq	$-4, %r14
	movq	%r15, %rdi
	xorl	%esi, %esi
	movq	%r14, %rdx
	callq	memset@PLT
	leaq	-1(%r12), %r8
	jmp	.LBBe5bae9e1_66
.LBBe5bae9e1_7:
	leaq	20(%rdi), %rdx
	movl	$8, %r9d
.LBBe5bae9e1_8:
	movzbl	(%rdi), %ecx
	movl	%esi, %r10d
	andl	$67108863, %r10d
	movl	%r10d, %r11d
	shrl	%cl, %r11d
	movq	$-1, %r14
	shlq	%cl, %r14
	testq	%r9, %r9
	je	.LBBe5bae9e1_13
	leaq	44(%rsp), %r12
	orl	$1, %r11d
	notq	%r14
	movl	%r10d, %r13d
	.p2align	4
.LBBe5bae9e1_10:
	andq	%r14, %r13
	movl	(%rdx,%r13,4), %ecx
	testl	%ecx, %ecx
	je	.LBBe5bae9e1_14
	andl	$67108863, %ecx
	cmpl	%r10d, %ecx
	je	.LBBe5bae9e1_14
	addq	%r11, %r13
	decq	%r9
	jne	.LBBe5bae9e1_10
.LBBe5bae9e1_13:
	ud2
.LBBe5bae9e1_14:
	testb	%al, %al
	je	.LBBe5bae9e1_17
	movq	24(%rdi), %rax
	movl	%esi, (%rax,%r13,4)
	incq	8(%rdi)
	cmpb	$0, 16(%rdi)
	je	.LBBe5bae9e1_18
.LBBe5bae9e1_16:
	movq	24(%rdi), %rax
	movq	%rax, 16(%rsp)
	movq	32(%rdi), %rdx
	jmp	.LBBe5bae9e1_19
.LBBe5bae9e1_17:
	movl	%esi, 20(%rdi,%r13,4)
	incq	8(%rdi)
	cmpb	$0, 16(%rdi)
	jne	.LBBe5bae9e1_16
.LBBe5bae9e1_18:
	leaq	20(%rdi), %rax
	movq	%rax, 16(%rsp)
	movl	$8, %edx
.LBBe5bae9e1_19:
	movq	$-1, %rsi
	movl	%ebx, %ecx
	shlq	%cl, %rsi
	cmpq	$3, %rbx
	jne	.LBBe5bae9e1_40
	xorl	%r14d, %r14d
	movq	16(%rsp), %rsi
	movq	%rdx, 8(%rsp)
	movq	%rdx, %r8
	.p2align	4
.LBBe5bae9e1_21:
	testq	%r8, %r8
	je	.LBBe5bae9e1_49
	decq	%r8
	movl	(%rsi), %r9d
	addq	$4, %rsi
	testq	%r9, %r9
	je	.LBBe5bae9e1_21
	movq	%r14, %rdx
	movl	%r9d, %r10d
	andl	$67108863, %r10d
	movl	%r10d, %r11d
	movl	%ebx, %ecx
	shrl	%cl, %r11d
	movl	%r9d, %ecx
	andl	$7, %ecx
	leal	(,%rcx,4), %r15d
	movl	44(%rsp,%r15), %eax
	testl	%eax, %eax
	je	.LBBe5bae9e1_39
	andl	$67108863, %eax
	cmpl	%r10d, %eax
	je	.LBBe5bae9e1_39
	orl	$1, %r11d
	addq	%r11, %rcx
	leal	(,%rcx,4), %r15d
	andl	$28, %r15d
	movl	44(%rsp,%r15), %eax
	testl	%eax, %eax
	je	.LBBe5bae9e1_39
	andl	$67108863, %eax
	cmpl	%r10d, %eax
	je	.LBBe5bae9e1_39
	addq	%r11, %rcx
	leal	(,%rcx,4), %r15d
	andl	$28, %r15d
	movl	44(%rsp,%r15), %eax
	testl	%eax, %eax
	je	.LBBe5bae9e1_39
	andl	$67108863, %eax
	cmpl	%r10d, %eax
	je	.LBBe5bae9e1_39
	addq	%r11, %rcx
	leal	(,%rcx,4), %r15d
	andl	$28, %r15d
	movl	44(%rsp,%r15), %eax
	testl	%eax, %eax
	je	.LBBe5bae9e1_39
	andl	$67108863, %eax
	cmpl	%r10d, %eax
	je	.LBBe5bae9e1_39
	addq	%r11, %rcx
	leal	(,%rcx,4), %r15d
	andl	$28, %r15d
	movl	44(%rsp,%r15), %eax
	testl	%eax, %eax
	je	.LBBe5bae9e1_39
	andl	$67108863, %eax
	cmpl	%r10d, %eax
	je	.LBBe5bae9e1_39
	addq	%r11, %rcx
	leal	(,%rcx,4), %r15d
	andl	$28, %r15d
	movl	44(%rsp,%r15), %eax
	testl	%eax, %eax
	je	.LBBe5bae9e1_39
	andl	$67108863, %eax
	cmpl	%r10d, %eax
	je	.LBBe5bae9e1_39
	addq	%r11, %rcx
	leal	(,%rcx,4), %r15d
	andl	$28, %r15d
	movl	44(%rsp,%r15), %eax
	testl	%eax, %eax
	je	.LBBe5bae9e1_39
	andl	$67108863, %eax
	cmpl	%r10d, %eax
	je	.LBBe5bae9e1_39
	addl	%r11d, %ecx
	shll	$2, %ecx
	movl	%ecx, %r15d
	andl	$28, %r15d
	movl	44(%rsp,%r15), %eax
	testl	%eax, %eax
	je	.LBBe5bae9e1_39
	andl	$67108863, %eax
	cmpl	%r10d, %eax
	jne	.LBBe5bae9e1_56
.LBBe5bae9e1_39:
	movl	%r9d, 44(%rsp,%r15)
	movq	%rdx, %r14
	incq	%r14
	movq	%r14, 32(%rsp)
	leaq	44(%rsp), %r12
	jmp	.LBBe5bae9e1_21
.LBBe5bae9e1_40:
	cmpq	$64, %r8
	movl	$64, %eax
	cmovbq	%r8, %rax
	notq	%rsi
	xorl	%r14d, %r14d
	movq	16(%rsp), %r10
	movq	%rdx, %r11
	.p2align	4
.LBBe5bae9e1_41:
	testq	%r11, %r11
	je	.LBBe5bae9e1_50
	decq	%r11
	movl	(%r10), %ebp
	addq	$4, %r10
	testq	%rbp, %rbp
	je	.LBBe5bae9e1_41
	movq	%r14, 80(%rsp)
	movq	%rdx, 8(%rsp)
	movl	%ebp, %r14d
	andl	$67108863, %r14d
	movl	%r14d, %r12d
	movl	%ebx, %ecx
	shrl	%cl, %r12d
	testq	%r8, %r8
	je	.LBBe5bae9e1_56
	orl	$1, %r12d
	movl	%r14d, %ecx
	andl	%esi, %ecx
	movq	%rax, %r9
	.p2align	4
.LBBe5bae9e1_45:
	movl	(%r15,%rcx,4), %edx
	testl	%edx, %edx
	je	.LBBe5bae9e1_48
	andl	$67108863, %edx
	cmpl	%r14d, %edx
	je	.LBBe5bae9e1_48
	addq	%r12, %rcx
	andq	%rsi, %rcx
	decq	%r9
	jne	.LBBe5bae9e1_45
	jmp	.LBBe5bae9e1_56
.LBBe5bae9e1_48:
	movl	%ebp, (%r15,%rcx,4)
	movq	80(%rsp), %r14
	incq	%r14
	movq	%r14, 32(%rsp)
	leaq	44(%rsp), %r12
	movq	8(%rsp), %rdx
	jmp	.LBBe5bae9e1_41
.LBBe5bae9e1_49:
	xorl	%eax, %eax
	jmp	.LBBe5bae9e1_51
.LBBe5bae9e1_50:
	movl	$1, %eax
.LBBe5bae9e1_51:
	movq	24(%rdi), %rcx
	movq	40(%rdi), %rsi
	movq	%rbx, (%rdi)
	movq	%r14, 8(%rdi)
	xorl	%edx, %edx
	cmpb	$0, 16(%rdi)
	movl	%eax, 16(%rdi)
	movups	(%r12), %xmm0
	movups	16(%r12), %xmm1
	movups	%xmm0, 20(%rdi)
	movups	%xmm1, 36(%rdi)
	je	.LBBe5bae9e1_54
	movl	$0, %eax
	testq	%rsi, %rsi
	je	.LBBe5bae9e1_55
	movq	%rcx, %rdi
	callq	rattle_dealloc@PLT
	xorl	%edx, %edx
.LBBe5bae9e1_54:
	xorl	%eax, %eax
.LBBe5bae9e1_55:
	addq	$88, %rsp
	popq	%rbx
	popq	%r12
	popq	%r13
	popq	%r14
	popq	%r15
	popq	%rbp
	retq
.LBBe5bae9e1_56:
	movq	%rdi, %r15
	cmpq	$3, %rbx
	jne	.LBBe5bae9e1_58
	xorps	%xmm0, %xmm0
	leaq	44(%rsp), %r12
	movups	%xmm0, 16(%r12)
	movups	%xmm0, (%r12)
	movq	8(%rsp), %rcx
	jmp	.LBBe5bae9e1_62
.LBBe5bae9e1_58:
	movq	56(%rsp), %r14
	testq	%r14, %r14
	leaq	44(%rsp), %r12
	movq	8(%rsp), %rcx
	je	.LBBe5bae9e1_62
	movq	48(%rsp), %rbx
	cmpq	$1, %r14
	je	.LBBe5bae9e1_61
	leaq	-4(,%r14,4), %rdx
	movq	%rbx, %rdi
	xorl	%esi, %esi
	movq	%rcx, %rbp
	callq	memset@PLT
	movq	%rbp, %rcx
.LBBe5bae9e1_61:
	movl	$0, -4(%rbx,%r14,4)
.LBBe5bae9e1_62:
	movq	$0, 32(%rsp)
	leaq	24(%rsp), %rdi
	movl	$1, %esi
	movq	16(%rsp), %rdx
	callq	hll_coupons.filling.put_by_cycles.8a2f8b2564a2651f
	testb	%al, %al
	je	.LBBe5bae9e1_67
	cmpb	$0, 16(%r15)
	je	.LBBe5bae9e1_68
	movq	24(%r15), %rcx
	movl	$0, (%rcx,%r13,4)
	decq	8(%r15)
	cmpb	$0, 40(%rsp)
	jne	.LBBe5bae9e1_69
	jmp	.LBBe5bae9e1_55
.LBBe5bae9e1_65:
	xorl	%r8d, %r8d
.LBBe5bae9e1_66:
	movq	%r13, %rdi
	movl	%ebp, %esi
	movl	$0, (%r15,%r8,4)
	incq	%r8
	movl	$1, %eax
	jmp	.LBBe5bae9e1_1
.LBBe5bae9e1_67:
	movq	24(%rsp), %rbx
	movq	32(%rsp), %r14
	movzbl	40(%rsp), %eax
	movq	%r15, %rdi
	jmp	.LBBe5bae9e1_51
.LBBe5bae9e1_68:
	movl	$0, 20(%r15,%r13,4)
	decq	8(%r15)
	cmpb	$0, 40(%rsp)
	je	.LBBe5bae9e1_55
.LBBe5bae9e1_69:
	cmpq	$0, 64(%rsp)
	je	.LBBe5bae9e1_55
	movq	48(%rsp), %rdi
	movl	%edx, %ebx
	movl	%eax, %ebp
	callq	rattle_dealloc@PLT
	movl	%ebp, %eax
	movl	%ebx, %edx
	jmp	.LBBe5bae9e1_55
.Lfunc_ende5bae9e1:
	.size	hll_coupons.aux_map.put_growing.8a2f8b2564a2651f, .Lfunc_ende5bae9e1-hll_coupons.aux_map.put_growing.8a2f8b2564a2651f

	.section	.text.hll_registers.exception_map.built.8a2f8b2564a2651f,"ax",@progbits
	.p2align	4
	.type	hll_registers.exception_map.built.8a2f8b2564a2651f,@function
hll_registers.exception_map.built.8a2f8b2564a2651f:
	pushq	%rbp
	pushq	%r15
	pushq	%r14
	pushq	%r13
	pushq	%r12
	pushq	%rbx
	subq	$152, %rsp
	movq	%rdi, %rbx
	movzbl	(%rsi), %eax
	movq	8(%rsi), %rdi
	movzbl	32(%rsi), %edx
	movq	40(%rsi), %rcx
	movq	56(%rsi), %r8
	movups	48(%rsi), %xmm0
	movaps	%xmm0, 112(%rsp)
	movsd	64(%rsi), %xmm0
	movaps	%xmm0, 96(%rsp)
	movq	80(%rsi), %r12
	movq	88(%rsi), %r15
	movq	96(%rsi), %r14
	movzbl	104(%rsi), %r11d
	movq	112(%rsi), %r9
	movq	128(%rsi), %r10
	xorps	%xmm0, %xmm0
	movaps	%xmm0, 80(%rsp)
	cmpq	$1, %rax
	jne	.LBBa55f8a91_1
	movq	%r14, 72(%rsp)
	movb	%r11b, 6(%rsp)
	movq	%r10, 64(%rsp)
	movq	%r9, 40(%rsp)
	movq	%r8, 32(%rsp)
	movq	%rdi, 48(%rsp)
	movb	%dl, 7(%rsp)
	movq	%rcx, 24(%rsp)
	movq	%rax, 56(%rsp)
	movups	16(%rsi), %xmm0
	movaps	%xmm0, 128(%rsp)
	movl	33(%rsi), %eax
	movl	36(%rsi), %ecx
	movl	%eax, 16(%rsp)
	movl	%ecx, 19(%rsp)
	testq	%r15, %r15
	je	.LBBa55f8a91_9
	leaq	64(%r12), %rbp
	jmp	.LBBa55f8a91_4
	.p2align	4
.LBBa55f8a91_8:
	addq	$72, %rbp
	decq	%r15
	je	.LBBa55f8a91_9
.LBBa55f8a91_4:
	movq	-16(%rbp), %r13
	movq	(%rbp), %r14
	cmpq	$0, -24(%rbp)
	je	.LBBa55f8a91_6
	movq	-40(%rbp), %rdi
	callq	rattle_dealloc@PLT
.LBBa55f8a91_6:
	testq	%r14, %r14
	je	.LBBa55f8a91_8
	movq	%r13, %rdi
	callq	rattle_dealloc@PLT
	jmp	.LBBa55f8a91_8
.LBBa55f8a91_1:
	xorl	%edx, %edx
	jmp	.LBBa55f8a91_16
.LBBa55f8a91_9:
	cmpq	$0, 72(%rsp)
	je	.LBBa55f8a91_11
	movq	%r12, %rdi
	callq	rattle_dealloc@PLT
.LBBa55f8a91_11:
	cmpb	$1, 6(%rsp)
	movzbl	7(%rsp), %ebp
	jne	.LBBa55f8a91_14
	cmpq	$0, 64(%rsp)
	je	.LBBa55f8a91_14
	movq	40(%rsp), %rdi
	callq	rattle_dealloc@PLT
.LBBa55f8a91_14:
	movaps	128(%rsp), %xmm0
	movaps	%xmm0, 80(%rsp)
	movl	16(%rsp), %eax
	movl	19(%rsp), %ecx
	movl	%eax, 8(%rsp)
	movl	%ecx, 11(%rsp)
	movl	$64, %edi
	movl	$8, %esi
	callq	rattle_alloc@PLT
	testb	$1, %al
	je	.LBBa55f8a91_17
	movq	48(%rsp), %rax
	movq	%rax, (%rdx)
	movaps	80(%rsp), %xmm0
	movups	%xmm0, 8(%rdx)
	movb	%bpl, 24(%rdx)
	movl	8(%rsp), %eax
	movl	11(%rsp), %ecx
	movl	%eax, 25(%rdx)
	movl	%ecx, 28(%rdx)
	movq	24(%rsp), %rax
	movq	%rax, 32(%rdx)
	movaps	112(%rsp), %xmm0
	movups	%xmm0, 40(%rdx)
	movaps	96(%rsp), %xmm0
	movlps	%xmm0, 56(%rdx)
	movq	56(%rsp), %rax
.LBBa55f8a91_16:
	movw	$0, (%rbx)
	movq	%rax, 8(%rbx)
	movq	%rdx, 16(%rbx)
	jmp	.LBBa55f8a91_21
.LBBa55f8a91_17:
	testb	%bpl, %bpl
	je	.LBBa55f8a91_20
	cmpq	$0, 32(%rsp)
	je	.LBBa55f8a91_20
	movq	24(%rsp), %rdi
	callq	rattle_dealloc@PLT
.LBBa55f8a91_20:
	movw	$3073, (%rbx)
	xorps	%xmm0, %xmm0
	movups	%xmm0, 8(%rbx)
.LBBa55f8a91_21:
	addq	$152, %rsp
	popq	%rbx
	popq	%r12
	popq	%r13
	popq	%r14
	popq	%r15
	popq	%rbp
	retq
.Lfunc_enda55f8a91:
	.size	hll_registers.exception_map.built.8a2f8b2564a2651f, .Lfunc_enda55f8a91-hll_registers.exception_map.built.8a2f8b2564a2651f

	.section	.rodata.cst16,"aM",@progbits,16
	.p2align	4, 0x0
.LCPI80771e73_0:
	.zero	16,15
.LCPI80771e73_1:
	.zero	16,1
.LCPI80771e73_2:
	.zero	16,240
	.section	.text.hll_kernels.nibbles.some_mark_nibbles_in,"ax",@progbits
	.p2align	4
	.type	hll_kernels.nibbles.some_mark_nibbles_in,@function
hll_kernels.nibbles.some_mark_nibbles_in:
	movdqa	.LCPI80771e73_0(%rip), %xmm0
	movdqu	(%rdi), %xmm3
	movdqu	16(%rdi), %xmm5
	movdqu	32(%rdi), %xmm4
	movdqu	48(%rdi), %xmm1
	movdqa	.LCPI80771e73_2(%rip), %xmm2
	movdqa	%xmm3, %xmm6
	pmaxub	%xmm2, %xmm6
	pcmpeqb	%xmm3, %xmm6
	pand	%xmm0, %xmm3
	movdqa	%xmm5, %xmm7
	pmaxub	%xmm2, %xmm7
	pcmpeqb	%xmm5, %xmm7
	pand	%xmm0, %xmm5
	pcmpeqb	%xmm0, %xmm3
	movdqa	.LCPI80771e73_1(%rip), %xmm8
	pand	%xmm8, %xmm3
	pcmpeqb	%xmm0, %xmm5
	pand	%xmm8, %xmm5
	psubb	%xmm6, %xmm3
	psubb	%xmm7, %xmm5
	movdqa	%xmm4, %xmm6
	pmaxub	%xmm2, %xmm6
	pcmpeqb	%xmm4, %xmm6
	pand	%xmm0, %xmm4
	pmaxub	%xmm1, %xmm2
	pcmpeqb	%xmm1, %xmm2
	pand	%xmm0, %xmm1
	pcmpeqb	%xmm0, %xmm4
	pcmpeqb	%xmm0, %xmm1
	psubb	%xmm6, %xmm3
	psubb	%xmm4, %xmm3
	psubb	%xmm2, %xmm5
	psubb	%xmm1, %xmm5
	paddb	%xmm3, %xmm5
	pshufd	$238, %xmm5, %xmm0
	paddb	%xmm5, %xmm0
	pxor	%xmm1, %xmm1
	psadbw	%xmm0, %xmm1
	movd	%xmm1, %eax
	retq
.Lfunc_end80771e73:
	.size	hll_kernels.nibbles.some_mark_nibbles_in, .Lfunc_end80771e73-hll_kernels.nibbles.some_mark_nibbles_in

	.section	.rodata.cst16,"aM",@progbits,16
	.p2align	4, 0x0
.LCPI3fc618e6_0:
	.zero	16,15
.LCPI3fc618e6_1:
	.byte	15
	.byte	15
	.byte	15
	.byte	15
	.byte	15
	.byte	15
	.byte	15
	.byte	15
	.zero	1
	.zero	1
	.zero	1
	.zero	1
	.zero	1
	.zero	1
	.zero	1
	.zero	1
.LCPI3fc618e6_2:
	.zero	16,240
	.section	.text.hll_registers.exception_map.max_with_registers.309f015d8caa795c,"ax",@progbits
	.p2align	4
	.type	hll_registers.exception_map.max_with_registers.309f015d8caa795c,@function
hll_registers.exception_map.max_with_registers.309f015d8caa795c:
	pushq	%rbp
	pushq	%r15
	pushq	%r14
	pushq	%r13
	pushq	%r12
	pushq	%rbx
	movq	%rdx, -32(%rsp)
	movl	%edx, %r12d
	shrl	%r12d
	movq	%rsi, %r14
	shrq	%r14
	leaq	(%rcx,%r12), %r11
	movq	%rsi, -40(%rsp)
	movq	%rsi, %rbx
	shrq	$6, %rbx
	movq	%r14, %r13
	andq	$-32, %r13
	movl	%r14d, %r15d
	andl	$31, %r15d
	testq	%rbx, %rbx
	je	.LBB3fc618e6_3
	movzbl	%r9b, %eax
	movd	%eax, %xmm0
	pxor	%xmm1, %xmm1
	pshufb	%xmm1, %xmm0
	leaq	(%r12,%rcx), %rax
	addq	$16, %rax
	xorl	%r10d, %r10d
	.p2align	4
.LBB3fc618e6_2:
	movdqu	-16(%rax,%r10), %xmm2
	movdqa	.LCPI3fc618e6_0(%rip), %xmm1
	movdqa	%xmm2, %xmm3
	pand	%xmm1, %xmm3
	paddb	%xmm0, %xmm3
	psrlw	$4, %xmm2
	pand	%xmm1, %xmm2
	paddb	%xmm0, %xmm2
	movdqa	%xmm3, %xmm4
	punpcklbw	%xmm2, %xmm4
	punpckhbw	%xmm2, %xmm3
	movdqu	(%rdi,%r10,2), %xmm2
	pmaxub	%xmm4, %xmm2
	movdqu	16(%rdi,%r10,2), %xmm4
	pmaxub	%xmm3, %xmm4
	movdqu	32(%rdi,%r10,2), %xmm3
	movdqu	48(%rdi,%r10,2), %xmm5
	movdqu	%xmm2, (%rdi,%r10,2)
	movdqu	%xmm4, 16(%rdi,%r10,2)
	movdqu	(%rax,%r10), %xmm2
	movdqa	%xmm2, %xmm4
	pand	%xmm1, %xmm4
	paddb	%xmm0, %xmm4
	psrlw	$4, %xmm2
	pand	%xmm1, %xmm2
	paddb	%xmm0, %xmm2
	movdqa	%xmm4, %xmm1
	punpcklbw	%xmm2, %xmm1
	pmaxub	%xmm3, %xmm1
	punpckhbw	%xmm2, %xmm4
	pmaxub	%xmm5, %xmm4
	movdqu	%xmm1, 32(%rdi,%r10,2)
	movdqu	%xmm4, 48(%rdi,%r10,2)
	addq	$32, %r10
	cmpq	%r10, %r13
	jne	.LBB3fc618e6_2
.LBB3fc618e6_3:
	leaq	(%r11,%r13), %rax
	movq	-40(%rsp), %r10
	andq	$-64, %r10
	testq	%r15, %r15
	je	.LBB3fc618e6_13
	cmpl	$8, %r15d
	jae	.LBB3fc618e6_6
	xorl	%r14d, %r14d
	jmp	.LBB3fc618e6_11
.LBB3fc618e6_6:
	movq	%r10, %rsi
	leaq	(%rdi,%r10), %rbp
	leaq	(,%r15,2), %rdx
	addq	%rbp, %rdx
	addq	%r13, %rcx
	addq	%r15, %r12
	addq	%rcx, %r12
	cmpq	%r12, %rbp
	setb	%cl
	cmpq	%rdx, %rax
	setb	%dl
	testb	%dl, %cl
	je	.LBB3fc618e6_8
	xorl	%r14d, %r14d
	movq	%rsi, %r10
	jmp	.LBB3fc618e6_11
.LBB3fc618e6_8:
	andl	$24, %r14d
	movzbl	%r9b, %ecx
	movd	%ecx, %xmm0
	punpcklbw	%xmm0, %xmm0
	pshuflw	$0, %xmm0, %xmm0
	xorl	%ecx, %ecx
	.p2align	4
.LBB3fc618e6_9:
	movq	(%rax,%rcx), %xmm1
	movdqa	.LCPI3fc618e6_1(%rip), %xmm3
	pand	%xmm1, %xmm3
	paddb	%xmm0, %xmm3
	movzbl	(%rbp,%rcx,2), %edx
	movd	%edx, %xmm2
	pinsrb	$1, 2(%rbp,%rcx,2), %xmm2
	pinsrb	$2, 4(%rbp,%rcx,2), %xmm2
	pinsrb	$3, 6(%rbp,%rcx,2), %xmm2
	pinsrb	$4, 8(%rbp,%rcx,2), %xmm2
	pinsrb	$5, 10(%rbp,%rcx,2), %xmm2
	pinsrb	$6, 12(%rbp,%rcx,2), %xmm2
	pinsrb	$7, 14(%rbp,%rcx,2), %xmm2
	pmaxub	%xmm3, %xmm2
	psrlw	$4, %xmm1
	pand	.LCPI3fc618e6_0(%rip), %xmm1
	movzbl	1(%rbp,%rcx,2), %edx
	movd	%edx, %xmm3
	pinsrb	$1, 3(%rbp,%rcx,2), %xmm3
	pinsrb	$2, 5(%rbp,%rcx,2), %xmm3
	pinsrb	$3, 7(%rbp,%rcx,2), %xmm3
	pinsrb	$4, 9(%rbp,%rcx,2), %xmm3
	pinsrb	$5, 11(%rbp,%rcx,2), %xmm3
	pinsrb	$6, 13(%rbp,%rcx,2), %xmm3
	paddb	%xmm0, %xmm1
	pinsrb	$7, 15(%rbp,%rcx,2), %xmm3
	pmaxub	%xmm1, %xmm3
	punpcklbw	%xmm3, %xmm2
	movdqu	%xmm2, (%rbp,%rcx,2)
	addq	$8, %rcx
	cmpq	%rcx, %r14
	jne	.LBB3fc618e6_9
	cmpl	%r14d, %r15d
	movq	%rsi, %r10
	je	.LBB3fc618e6_13
.LBB3fc618e6_11:
	leaq	(%r10,%rdi), %rcx
	incq	%rcx
	.p2align	4
.LBB3fc618e6_12:
	movzbl	(%rax,%r14), %edx
	andb	$15, %dl
	addb	%r9b, %dl
	movzbl	-1(%rcx,%r14,2), %esi
	movzbl	%dl, %edx
	cmpb	%sil, %dl
	cmoval	%edx, %esi
	movb	%sil, -1(%rcx,%r14,2)
	movzbl	(%rax,%r14), %edx
	shrb	$4, %dl
	addb	%r9b, %dl
	movzbl	(%rcx,%r14,2), %esi
	movzbl	%dl, %edx
	cmpb	%sil, %dl
	cmoval	%edx, %esi
	movb	%sil, (%rcx,%r14,2)
	incq	%r14
	cmpq	%r14, %r15
	jne	.LBB3fc618e6_12
.LBB3fc618e6_13:
	cmpb	$1, (%r8)
	jne	.LBB3fc618e6_61
	movq	8(%r8), %r8
	movzbl	8(%r8), %ecx
	movl	$4, %edx
	shlq	%cl, %rdx
	movq	-40(%rsp), %rcx
	shrq	$3, %rcx
	cmpq	$129, %rcx
	movl	$128, %esi
	cmovaeq	%rcx, %rsi
	cmpq	%rsi, %rdx
	jbe	.LBB3fc618e6_33
	testq	%rbx, %rbx
	je	.LBB3fc618e6_31
	xorl	%ebp, %ebp
	movq	%r10, -16(%rsp)
	movq	%r11, -24(%rsp)
.LBB3fc618e6_17:
	movq	%rbp, %r15
	shlq	$5, %r15
	movdqu	(%r11,%r15), %xmm0
	movdqu	16(%r11,%r15), %xmm1
	movdqa	.LCPI3fc618e6_0(%rip), %xmm2
	movdqa	.LCPI3fc618e6_2(%rip), %xmm3
	movdqa	%xmm1, %xmm4
	pmaxub	%xmm3, %xmm4
	pmaxub	%xmm0, %xmm3
	pcmpeqb	%xmm0, %xmm3
	pand	%xmm2, %xmm0
	pcmpeqb	%xmm1, %xmm4
	pand	%xmm2, %xmm1
	pcmpeqb	%xmm2, %xmm1
	pcmpeqb	%xmm2, %xmm0
	por	%xmm1, %xmm4
	por	%xmm0, %xmm3
	por	%xmm4, %xmm3
	pmovmskb	%xmm3, %ecx
	testl	%ecx, %ecx
	je	.LBB3fc618e6_30
	addq	%r11, %r15
	movq	%rbp, %r14
	shlq	$6, %r14
	leaq	63(%r14), %rsi
	movq	%r14, %r12
	movq	%rbp, -8(%rsp)
	jmp	.LBB3fc618e6_21
.LBB3fc618e6_19:
	shrl	$26, %ebp
	movzbl	(%rdi,%r12), %ecx
	cmpb	%cl, %bpl
	cmovbel	%ecx, %ebp
	movb	%bpl, (%rdi,%r12)
	movq	-16(%rsp), %r10
	movq	-24(%rsp), %r11
	movq	-8(%rsp), %rbp
	leaq	63(%r14), %rsi
.LBB3fc618e6_20:
	cmpq	%rsi, %r12
	leaq	1(%r12), %r12
	je	.LBB3fc618e6_30
.LBB3fc618e6_21:
	movq	%r12, %rcx
	subq	%r14, %rcx
	shrq	%rcx
	movzbl	(%r15,%rcx), %ecx
	movl	%ecx, %edx
	andb	$15, %dl
	shrb	$4, %cl
	testb	$1, %r12b
	movzbl	%dl, %edx
	movzbl	%cl, %ecx
	cmovel	%edx, %ecx
	cmpb	$15, %cl
	jne	.LBB3fc618e6_20
	movzbl	24(%r8), %ecx
	movb	%cl, -41(%rsp)
	testb	%cl, %cl
	je	.LBB3fc618e6_24
	movq	32(%r8), %r13
	movq	40(%r8), %rcx
	cmpq	$256, %rcx
	movl	$256, %r11d
	cmovbq	%rcx, %r11
	jmp	.LBB3fc618e6_25
.LBB3fc618e6_24:
	movl	$8, %r11d
	leaq	28(%r8), %r13
.LBB3fc618e6_25:
	movq	-32(%rsp), %rcx
	leal	(%rcx,%r12), %edx
	movzbl	8(%r8), %ecx
	movl	%edx, %r9d
	andl	$67108863, %r9d
	shrl	%cl, %r9d
	movq	$-1, %rsi
	shlq	%cl, %rsi
	testq	%r11, %r11
	je	.LBB3fc618e6_48
	orl	$1, %r9d
	notq	%rsi
	movl	%edx, %ecx
	.p2align	4
.LBB3fc618e6_27:
	andq	%rsi, %rcx
	movl	(%r13,%rcx,4), %ebp
	testl	%ebp, %ebp
	je	.LBB3fc618e6_19
	movl	%ebp, %r10d
	andl	$67108863, %r10d
	cmpl	%edx, %r10d
	je	.LBB3fc618e6_19
	addq	%r9, %rcx
	decq	%r11
	jne	.LBB3fc618e6_27
	jmp	.LBB3fc618e6_48
.LBB3fc618e6_30:
	incq	%rbp
	cmpq	%rbx, %rbp
	jne	.LBB3fc618e6_17
.LBB3fc618e6_31:
	testb	$62, -40(%rsp)
	je	.LBB3fc618e6_61
	movq	-40(%rsp), %r9
	andq	$-2, %r9
	movq	%r10, %rbx
	jmp	.LBB3fc618e6_37
.LBB3fc618e6_33:
	movzbl	24(%r8), %r11d
	testb	%r11b, %r11b
	jne	.LBB3fc618e6_47
.LBB3fc618e6_49:
	addq	$28, %r8
	movl	$8, %eax
	jmp	.LBB3fc618e6_50
.LBB3fc618e6_48:
	movzbl	-41(%rsp), %r11d
	testb	%r11b, %r11b
	jne	.LBB3fc618e6_47
	jmp	.LBB3fc618e6_49
.LBB3fc618e6_35:
	shrl	$26, %r10d
	movzbl	(%rdi,%rbx), %ecx
	cmpb	%cl, %r10b
	cmovbel	%ecx, %r10d
	movb	%r10b, (%rdi,%rbx)
	movq	%r13, %r10
.LBB3fc618e6_36:
	incq	%rbx
	cmpq	%r9, %rbx
	je	.LBB3fc618e6_61
.LBB3fc618e6_37:
	movq	%rbx, %rcx
	subq	%r10, %rcx
	shrq	%rcx
	movzbl	(%rax,%rcx), %ecx
	movl	%ecx, %edx
	andb	$15, %dl
	shrb	$4, %cl
	testb	$1, %bl
	movzbl	%dl, %edx
	movzbl	%cl, %ecx
	cmovel	%edx, %ecx
	cmpb	$15, %cl
	jne	.LBB3fc618e6_36
	movzbl	24(%r8), %r11d
	testb	%r11b, %r11b
	je	.LBB3fc618e6_40
	movq	32(%r8), %r14
	movq	40(%r8), %rcx
	cmpq	$256, %rcx
	movl	$256, %edx
	cmovbq	%rcx, %rdx
	jmp	.LBB3fc618e6_41
.LBB3fc618e6_40:
	movl	$8, %edx
	leaq	28(%r8), %r14
.LBB3fc618e6_41:
	movq	-32(%rsp), %rcx
	leal	(%rcx,%rbx), %r15d
	movzbl	8(%r8), %ecx
	movl	%r15d, %esi
	andl	$67108863, %esi
	shrl	%cl, %esi
	movq	$-1, %r12
	shlq	%cl, %r12
	testq	%rdx, %rdx
	je	.LBB3fc618e6_46
	movq	%r10, %r13
	orl	$1, %esi
	notq	%r12
	movl	%r15d, %ecx
	.p2align	4
.LBB3fc618e6_43:
	andq	%r12, %rcx
	movl	(%r14,%rcx,4), %r10d
	testl	%r10d, %r10d
	je	.LBB3fc618e6_35
	movl	%r10d, %ebp
	andl	$67108863, %ebp
	cmpl	%r15d, %ebp
	je	.LBB3fc618e6_35
	addq	%rsi, %rcx
	decq	%rdx
	jne	.LBB3fc618e6_43
.LBB3fc618e6_46:
	testb	%r11b, %r11b
	je	.LBB3fc618e6_49
.LBB3fc618e6_47:
	movq	40(%r8), %rax
	movq	32(%r8), %r8
.LBB3fc618e6_50:
	cmpq	$4, %rax
	jae	.LBB3fc618e6_56
	.p2align	4
.LBB3fc618e6_51:
	testq	%rax, %rax
	je	.LBB3fc618e6_61
	decq	%rax
	movl	(%r8), %ecx
	addq	$4, %r8
	testq	%rcx, %rcx
	je	.LBB3fc618e6_51
	movl	%ecx, %edx
	andl	$67108863, %edx
	cmpl	-32(%rsp), %edx
	jb	.LBB3fc618e6_50
	movl	-32(%rsp), %esi
	subq	%rsi, %rdx
	cmpq	%rdx, -40(%rsp)
	jbe	.LBB3fc618e6_50
	shrl	$26, %ecx
	movzbl	(%rdi,%rdx), %esi
	movzbl	%cl, %ecx
	cmpb	%sil, %cl
	cmoval	%ecx, %esi
	movb	%sil, (%rdi,%rdx)
	jmp	.LBB3fc618e6_50
	.p2align	4
.LBB3fc618e6_56:
	cmpl	$0, (%r8)
	jne	.LBB3fc618e6_51
	cmpl	$0, 4(%r8)
	jne	.LBB3fc618e6_51
	cmpl	$0, 8(%r8)
	jne	.LBB3fc618e6_51
	cmpl	$0, 12(%r8)
	jne	.LBB3fc618e6_51
	addq	$16, %r8
	addq	$-4, %rax
	cmpq	$3, %rax
	ja	.LBB3fc618e6_56
	jmp	.LBB3fc618e6_51
.LBB3fc618e6_61:
	popq	%rbx
	popq	%r12
	popq	%r13
	popq	%r14
	popq	%r15
	popq	%rbp
	retq
.Lfunc_end3fc618e6:
	.size	hll_registers.exception_map.max_with_registers.309f015d8caa795c, .Lfunc_end3fc618e6-hll_registers.exception_map.max_with_registers.309f015d8caa795c

	.section	.rodata.cst16,"aM",@progbits,16
	.p2align	4, 0x0
.LCPI1ac6ee2c_0:
	.zero	16,63
.LCPI1ac6ee2c_1:
	.zero	16,15
.LCPI1ac6ee2c_2:
	.short	255
	.short	255
	.short	255
	.short	255
	.short	255
	.short	255
	.short	255
	.short	255
.LCPI1ac6ee2c_3:
	.byte	1
	.byte	3
	.byte	5
	.byte	7
	.byte	9
	.byte	11
	.byte	13
	.byte	15
	.zero	1
	.zero	1
	.zero	1
	.zero	1
	.zero	1
	.zero	1
	.zero	1
	.zero	1
.LCPI1ac6ee2c_4:
	.zero	16,1
.LCPI1ac6ee2c_5:
	.byte	15
	.byte	15
	.byte	15
	.byte	15
	.zero	1
	.zero	1
	.zero	1
	.zero	1
	.zero	1
	.zero	1
	.zero	1
	.zero	1
	.zero	1
	.zero	1
	.zero	1
	.zero	1
.LCPI1ac6ee2c_6:
	.long	1
	.long	1
	.long	1
	.long	1
.LCPI1ac6ee2c_7:
	.byte	16
	.byte	16
	.byte	16
	.byte	16
	.zero	1
	.zero	1
	.zero	1
	.zero	1
	.zero	1
	.zero	1
	.zero	1
	.zero	1
	.zero	1
	.zero	1
	.zero	1
	.zero	1
.LCPI1ac6ee2c_8:
	.byte	1
	.byte	3
	.byte	5
	.byte	7
	.byte	9
	.byte	11
	.byte	13
	.byte	15
	.byte	0
	.byte	0
	.byte	0
	.byte	0
	.byte	0
	.byte	0
	.byte	0
	.byte	0
	.section	.text.hll_registers.nibble_registers.NibbleRegisters.from_values.8a2f8b2564a2651f,"ax",@progbits
	.p2align	4
	.type	hll_registers.nibble_registers.NibbleRegisters.from_values.8a2f8b2564a2651f,@function
hll_registers.nibble_registers.NibbleRegisters.from_values.8a2f8b2564a2651f:
	pushq	%rbp
	pushq	%r15
	pushq	%r14
	pushq	%r13
	pushq	%r12
	pushq	%rbx
	subq	$408, %rsp
	movq	%rcx, %r13
	movq	%rdx, %rbp
	testq	%rcx, %rcx
	movl	%esi, 44(%rsp)
	movq	%rcx, 16(%rsp)
	je	.LBB1ac6ee2c_1
	cmpq	$4, %r13
	jae	.LBB1ac6ee2c_5
	movb	$63, %bl
	xorl	%eax, %eax
	jmp	.LBB1ac6ee2c_4
.LBB1ac6ee2c_1:
	movq	%rdi, 32(%rsp)
	leaq	11(%rsp), %rax
	movq	%rax, 72(%rsp)
	movb	$63, %bl
	movq	$0, 64(%rsp)
	movq	$0, 24(%rsp)
	jmp	.LBB1ac6ee2c_34
.LBB1ac6ee2c_5:
	cmpq	$32, %r13
	jae	.LBB1ac6ee2c_7
	movb	$63, %bl
	xorl	%eax, %eax
	jmp	.LBB1ac6ee2c_11
.LBB1ac6ee2c_7:
	movq	%r13, %rax
	andq	$-32, %rax
	movdqa	.LCPI1ac6ee2c_0(%rip), %xmm0
	xorl	%ecx, %ecx
	movdqa	%xmm0, %xmm1
	.p2align	4
.LBB1ac6ee2c_8:
	movdqu	(%rbp,%rcx), %xmm2
	pminub	%xmm2, %xmm0
	movdqu	16(%rbp,%rcx), %xmm2
	pminub	%xmm2, %xmm1
	addq	$32, %rcx
	cmpq	%rcx, %rax
	jne	.LBB1ac6ee2c_8
	pminub	%xmm1, %xmm0
	movdqa	%xmm0, %xmm1
	psrlw	$8, %xmm1
	pminub	%xmm0, %xmm1
	phminposuw	%xmm1, %xmm0
	movd	%xmm0, %ebx
	cmpq	%rax, %r13
	je	.LBB1ac6ee2c_15
	testb	$28, %r13b
	je	.LBB1ac6ee2c_4
.LBB1ac6ee2c_11:
	movq	%rax, %rcx
	movq	%r13, %rax
	andq	$-4, %rax
	movzbl	%bl, %edx
	movd	%edx, %xmm0
	punpcklbw	%xmm0, %xmm0
	pshuflw	$0, %xmm0, %xmm0
	.p2align	4
.LBB1ac6ee2c_12:
	movd	(%rbp,%rcx), %xmm1
	pminub	%xmm1, %xmm0
	addq	$4, %rcx
	cmpq	%rcx, %rax
	jne	.LBB1ac6ee2c_12
	movdqa	%xmm0, %xmm1
	psrld	$16, %xmm1
	pminub	%xmm0, %xmm1
	movdqa	%xmm1, %xmm0
	psrlw	$8, %xmm0
	pminub	%xmm1, %xmm0
	movd	%xmm0, %ebx
	jmp	.LBB1ac6ee2c_14
.LBB1ac6ee2c_4:
	movzbl	(%rbp,%rax), %ecx
	movzbl	%bl, %ebx
	cmpb	%bl, %cl
	cmovbl	%ecx, %ebx
	incq	%rax
.LBB1ac6ee2c_14:
	cmpq	%rax, %r13
	jne	.LBB1ac6ee2c_4
.LBB1ac6ee2c_15:
	movq	%r13, %r15
	shrq	%r15
	je	.LBB1ac6ee2c_16
	movq	%rdi, %r14
	movl	$1, %esi
	movq	%r15, %rdi
	callq	rattle_alloc@PLT
	testb	$1, %al
	je	.LBB1ac6ee2c_80
	movq	%rdx, %r12
	cmpq	$1, %r15
	jne	.LBB1ac6ee2c_20
	xorl	%r13d, %r13d
	jmp	.LBB1ac6ee2c_21
.LBB1ac6ee2c_16:
	leaq	11(%rsp), %r12
	xorl	%r13d, %r13d
	movq	16(%rsp), %rax
	shrq	$5, %rax
	je	.LBB1ac6ee2c_23
.LBB1ac6ee2c_24:
	movzbl	%bl, %ecx
	movd	%ecx, %xmm0
	pxor	%xmm1, %xmm1
	pshufb	%xmm1, %xmm0
	shlq	$4, %rax
	xorl	%ecx, %ecx
	.p2align	4
.LBB1ac6ee2c_25:
	movdqu	(%rbp,%rcx,2), %xmm1
	movdqu	16(%rbp,%rcx,2), %xmm2
	psubusb	%xmm0, %xmm1
	movdqa	.LCPI1ac6ee2c_1(%rip), %xmm3
	pminub	%xmm3, %xmm1
	psubusb	%xmm0, %xmm2
	pminub	%xmm3, %xmm2
	movdqa	.LCPI1ac6ee2c_2(%rip), %xmm3
	movdqa	%xmm2, %xmm4
	pand	%xmm3, %xmm4
	pand	%xmm1, %xmm3
	packuswb	%xmm4, %xmm3
	movq	.LCPI1ac6ee2c_8(%rip), %xmm4
	pshufb	%xmm4, %xmm2
	pshufb	%xmm4, %xmm1
	punpcklqdq	%xmm2, %xmm1
	psllw	$4, %xmm1
	por	%xmm3, %xmm1
	movdqu	%xmm1, (%r12,%rcx)
	addq	$16, %rcx
	cmpq	%rcx, %rax
	jne	.LBB1ac6ee2c_25
	jmp	.LBB1ac6ee2c_26
.LBB1ac6ee2c_80:
	movw	$3073, (%r14)
	pxor	%xmm0, %xmm0
	movdqu	%xmm0, 8(%r14)
	movdqu	%xmm0, 24(%r14)
	movdqu	%xmm0, 40(%r14)
	jmp	.LBB1ac6ee2c_93
.LBB1ac6ee2c_20:
	leaq	-1(%r15), %r13
	movq	%r12, %rdi
	xorl	%esi, %esi
	movq	%r13, %rdx
	callq	memset@PLT
.LBB1ac6ee2c_21:
	movl	44(%rsp), %esi
	movb	$0, (%r12,%r13)
	incq	%r13
	movq	%r14, %rdi
	movq	16(%rsp), %rax
	shrq	$5, %rax
	jne	.LBB1ac6ee2c_24
.LBB1ac6ee2c_23:
	xorl	%eax, %eax
.LBB1ac6ee2c_26:
	movq	%r15, %rcx
	andq	$15, %rcx
	movq	%rdi, 32(%rsp)
	movq	%r15, 24(%rsp)
	movq	%r12, 72(%rsp)
	movq	%r13, 64(%rsp)
	je	.LBB1ac6ee2c_33
	movq	16(%rsp), %rdx
	andq	$-32, %rdx
	addq	%rbp, %rdx
	addq	%r12, %rax
	xorl	%r10d, %r10d
	xorl	%r11d, %r11d
	jmp	.LBB1ac6ee2c_28
	.p2align	4
.LBB1ac6ee2c_32:
	shlb	$4, %r9b
	orb	%r8b, %r9b
	movb	%r9b, (%rax,%r11)
	incq	%r11
	cmpq	%r11, %rcx
	je	.LBB1ac6ee2c_33
.LBB1ac6ee2c_28:
	movzwl	(%rdx,%r11,2), %r9d
	movl	%r9d, %r8d
	subb	%bl, %r8b
	movzbl	%r8b, %r8d
	cmovbl	%r10d, %r8d
	cmpb	$15, %r8b
	jb	.LBB1ac6ee2c_30
	movl	$15, %r8d
.LBB1ac6ee2c_30:
	shrl	$8, %r9d
	subb	%bl, %r9b
	movzbl	%r9b, %r9d
	cmovbl	%r10d, %r9d
	cmpb	$15, %r9b
	jb	.LBB1ac6ee2c_32
	movl	$15, %r9d
	jmp	.LBB1ac6ee2c_32
.LBB1ac6ee2c_33:
	movq	16(%rsp), %r13
.LBB1ac6ee2c_34:
	pxor	%xmm0, %xmm0
	movdqa	%xmm0, 80(%rsp)
	movq	$0, 96(%rsp)
	shrq	$6, %r13
	movq	%r13, 248(%rsp)
	movdqa	%xmm0, 112(%rsp)
	movdqa	%xmm0, 128(%rsp)
	movdqa	%xmm0, 144(%rsp)
	movdqa	%xmm0, 160(%rsp)
	movdqa	%xmm0, 176(%rsp)
	movdqa	%xmm0, 192(%rsp)
	movdqa	%xmm0, 208(%rsp)
	movdqa	%xmm0, 224(%rsp)
	movq	$0, 240(%rsp)
	movzbl	%sil, %eax
	movl	%eax, 12(%rsp)
	je	.LBB1ac6ee2c_42
	leal	15(%rbx), %r15d
	movzbl	%r15b, %eax
	movd	%eax, %xmm1
	pshufb	%xmm0, %xmm1
	movdqa	%xmm1, 256(%rsp)
	xorl	%eax, %eax
	xorl	%r14d, %r14d
	movq	%rbp, 48(%rsp)
	jmp	.LBB1ac6ee2c_36
	.p2align	4
.LBB1ac6ee2c_41:
	movq	56(%rsp), %rax
	incq	%rax
	addq	$64, %r14
	cmpq	248(%rsp), %rax
	movq	48(%rsp), %rbp
	je	.LBB1ac6ee2c_42
.LBB1ac6ee2c_36:
	movq	%rax, 56(%rsp)
	shlq	$6, %rax
	movdqu	(%rbp,%rax), %xmm0
	movdqu	16(%rbp,%rax), %xmm1
	movdqu	32(%rbp,%rax), %xmm2
	pmaxub	%xmm0, %xmm2
	movdqu	48(%rbp,%rax), %xmm0
	pmaxub	%xmm1, %xmm0
	pmaxub	%xmm2, %xmm0
	movdqa	256(%rsp), %xmm1
	pminub	%xmm1, %xmm0
	pcmpeqb	%xmm1, %xmm0
	pmovmskb	%xmm0, %eax
	testl	%eax, %eax
	je	.LBB1ac6ee2c_41
	movq	48(%rsp), %rax
	leaq	(%rax,%r14), %rbp
	xorl	%r13d, %r13d
	jmp	.LBB1ac6ee2c_38
	.p2align	4
.LBB1ac6ee2c_40:
	incq	%r13
	cmpq	$64, %r13
	je	.LBB1ac6ee2c_41
.LBB1ac6ee2c_38:
	movzbl	(%rbp,%r13), %eax
	cmpb	%al, %r15b
	ja	.LBB1ac6ee2c_40
	leal	(%r14,%r13), %edx
	movzbl	%al, %ecx
	leaq	112(%rsp), %rdi
	movl	12(%rsp), %esi
	callq	hll_registers.exception_map.add_exception.8a2f8b2564a2651f
	testb	%al, %al
	je	.LBB1ac6ee2c_40
	movl	%edx, %r12d
	cmpb	$1, 112(%rsp)
	jne	.LBB1ac6ee2c_49
	movq	192(%rsp), %r13
	movq	200(%rsp), %rbx
	movq	208(%rsp), %rax
	movq	%rax, 16(%rsp)
	movzbl	216(%rsp), %eax
	movb	%al, 12(%rsp)
	movq	224(%rsp), %rax
	movq	%rax, 48(%rsp)
	movq	240(%rsp), %rax
	movq	%rax, 56(%rsp)
	cmpb	$0, 144(%rsp)
	je	.LBB1ac6ee2c_57
	cmpq	$0, 168(%rsp)
	je	.LBB1ac6ee2c_57
	movq	152(%rsp), %rdi
	callq	rattle_dealloc@PLT
.LBB1ac6ee2c_57:
	testq	%rbx, %rbx
	je	.LBB1ac6ee2c_64
	leaq	64(%r13), %r15
	jmp	.LBB1ac6ee2c_59
	.p2align	4
.LBB1ac6ee2c_63:
	addq	$72, %r15
	decq	%rbx
	je	.LBB1ac6ee2c_64
.LBB1ac6ee2c_59:
	movq	-16(%r15), %rbp
	movq	(%r15), %r14
	cmpq	$0, -24(%r15)
	je	.LBB1ac6ee2c_61
	movq	-40(%r15), %rdi
	callq	rattle_dealloc@PLT
.LBB1ac6ee2c_61:
	testq	%r14, %r14
	je	.LBB1ac6ee2c_63
	movq	%rbp, %rdi
	callq	rattle_dealloc@PLT
	jmp	.LBB1ac6ee2c_63
.LBB1ac6ee2c_42:
	movq	16(%rsp), %r14
	movq	%r14, %rax
	andq	$-64, %rax
	subq	%rax, %r14
	jne	.LBB1ac6ee2c_43
.LBB1ac6ee2c_47:
	leaq	120(%rsp), %rax
	movzbl	112(%rsp), %ecx
	movq	%rcx, 272(%rsp)
	movups	(%rax), %xmm0
	movups	16(%rax), %xmm1
	movdqu	32(%rax), %xmm2
	movdqu	48(%rax), %xmm3
	movups	%xmm0, 280(%rsp)
	movups	%xmm1, 296(%rsp)
	movdqu	%xmm2, 312(%rsp)
	movdqu	%xmm3, 328(%rsp)
	movups	184(%rsp), %xmm0
	movdqu	200(%rsp), %xmm1
	movups	%xmm0, 344(%rsp)
	movdqu	%xmm1, 360(%rsp)
	movzbl	216(%rsp), %eax
	movq	%rax, 376(%rsp)
	movdqa	224(%rsp), %xmm0
	movdqu	%xmm0, 384(%rsp)
	movq	240(%rsp), %rax
	movq	%rax, 400(%rsp)
	leaq	80(%rsp), %rdi
	leaq	272(%rsp), %rsi
	callq	hll_registers.exception_map.built.8a2f8b2564a2651f
	cmpb	$0, 80(%rsp)
	je	.LBB1ac6ee2c_81
	movzbl	81(%rsp), %r12d
.LBB1ac6ee2c_49:
	movq	32(%rsp), %rbx
	movq	24(%rsp), %r14
	jmp	.LBB1ac6ee2c_50
.LBB1ac6ee2c_43:
	leal	15(%rbx), %r15d
	movq	16(%rsp), %rcx
	andl	$-64, %ecx
	movq	%rcx, 16(%rsp)
	addq	%rax, %rbp
	xorl	%r13d, %r13d
	jmp	.LBB1ac6ee2c_44
	.p2align	4
.LBB1ac6ee2c_46:
	incq	%r13
	cmpq	%r13, %r14
	je	.LBB1ac6ee2c_47
.LBB1ac6ee2c_44:
	movzbl	(%rbp,%r13), %eax
	cmpb	%al, %r15b
	ja	.LBB1ac6ee2c_46
	movq	16(%rsp), %rcx
	leal	(%rcx,%r13), %edx
	movzbl	%al, %ecx
	leaq	112(%rsp), %rdi
	movl	12(%rsp), %esi
	callq	hll_registers.exception_map.add_exception.8a2f8b2564a2651f
	testb	%al, %al
	je	.LBB1ac6ee2c_46
	movl	%edx, %r12d
	cmpb	$1, 112(%rsp)
	jne	.LBB1ac6ee2c_49
	movq	192(%rsp), %r13
	movq	200(%rsp), %rbx
	movq	208(%rsp), %rax
	movq	%rax, 16(%rsp)
	movzbl	216(%rsp), %eax
	movb	%al, 12(%rsp)
	movq	224(%rsp), %rax
	movq	%rax, 48(%rsp)
	movq	240(%rsp), %rax
	movq	%rax, 56(%rsp)
	cmpb	$0, 144(%rsp)
	je	.LBB1ac6ee2c_73
	cmpq	$0, 168(%rsp)
	je	.LBB1ac6ee2c_73
	movq	152(%rsp), %rdi
	callq	rattle_dealloc@PLT
.LBB1ac6ee2c_73:
	testq	%rbx, %rbx
	je	.LBB1ac6ee2c_64
	leaq	64(%r13), %r15
	jmp	.LBB1ac6ee2c_75
	.p2align	4
.LBB1ac6ee2c_79:
	addq	$72, %r15
	decq	%rbx
	je	.LBB1ac6ee2c_64
.LBB1ac6ee2c_75:
	movq	-16(%r15), %rbp
	movq	(%r15), %r14
	cmpq	$0, -24(%r15)
	je	.LBB1ac6ee2c_77
	movq	-40(%r15), %rdi
	callq	rattle_dealloc@PLT
.LBB1ac6ee2c_77:
	testq	%r14, %r14
	je	.LBB1ac6ee2c_79
	movq	%rbp, %rdi
	callq	rattle_dealloc@PLT
	jmp	.LBB1ac6ee2c_79
.LBB1ac6ee2c_64:
	cmpq	$0, 16(%rsp)
	je	.LBB1ac6ee2c_66
	movq	%r13, %rdi
	callq	rattle_dealloc@PLT
.LBB1ac6ee2c_66:
	cmpb	$1, 12(%rsp)
	movq	32(%rsp), %rbx
	movq	24(%rsp), %r14
	jne	.LBB1ac6ee2c_50
	cmpq	$0, 56(%rsp)
	je	.LBB1ac6ee2c_50
	movq	48(%rsp), %rdi
	callq	rattle_dealloc@PLT
.LBB1ac6ee2c_50:
	testq	%r14, %r14
	je	.LBB1ac6ee2c_52
	movq	72(%rsp), %rdi
	callq	rattle_dealloc@PLT
.LBB1ac6ee2c_52:
	movb	$1, (%rbx)
	movb	%r12b, 1(%rbx)
	pxor	%xmm0, %xmm0
	movdqu	%xmm0, 8(%rbx)
	movdqu	%xmm0, 24(%rbx)
	movdqu	%xmm0, 40(%rbx)
.LBB1ac6ee2c_93:
	addq	$408, %rsp
	popq	%rbx
	popq	%r12
	popq	%r13
	popq	%r14
	popq	%r15
	popq	%rbp
	retq
.LBB1ac6ee2c_81:
	movzbl	88(%rsp), %eax
	movq	64(%rsp), %rdx
	movq	%rdx, %rcx
	andq	$-64, %rcx
	andl	$63, %edx
	xorl	%edi, %edi
	movl	$0, %esi
	testq	%rcx, %rcx
	movq	32(%rsp), %r14
	movq	24(%rsp), %r15
	movq	72(%rsp), %r12
	movl	44(%rsp), %r13d
	je	.LBB1ac6ee2c_84
	xorl	%esi, %esi
	xorl	%r8d, %r8d
	.p2align	4
.LBB1ac6ee2c_83:
	movdqa	.LCPI1ac6ee2c_1(%rip), %xmm0
	movdqu	(%r12,%r8), %xmm3
	movdqu	16(%r12,%r8), %xmm5
	movdqu	32(%r12,%r8), %xmm2
	movdqu	48(%r12,%r8), %xmm1
	movdqa	%xmm3, %xmm6
	pminub	%xmm0, %xmm6
	pcmpeqb	%xmm3, %xmm6
	pand	%xmm0, %xmm3
	movdqa	%xmm5, %xmm7
	pminub	%xmm0, %xmm7
	pcmpeqb	%xmm5, %xmm7
	pand	%xmm0, %xmm5
	pxor	%xmm4, %xmm4
	pcmpeqb	%xmm4, %xmm3
	movdqa	.LCPI1ac6ee2c_4(%rip), %xmm8
	pand	%xmm8, %xmm3
	pcmpeqb	%xmm4, %xmm5
	pand	%xmm8, %xmm5
	psubb	%xmm6, %xmm3
	psubb	%xmm7, %xmm5
	movdqa	%xmm2, %xmm6
	pminub	%xmm0, %xmm6
	pcmpeqb	%xmm2, %xmm6
	pand	%xmm0, %xmm2
	movdqa	%xmm1, %xmm7
	pand	%xmm0, %xmm7
	pcmpeqb	%xmm4, %xmm2
	pcmpeqb	%xmm4, %xmm7
	psubb	%xmm6, %xmm3
	psubb	%xmm2, %xmm3
	pminub	%xmm1, %xmm0
	pcmpeqb	%xmm1, %xmm0
	psubb	%xmm0, %xmm5
	psubb	%xmm7, %xmm5
	paddb	%xmm3, %xmm5
	pshufd	$238, %xmm5, %xmm0
	paddb	%xmm5, %xmm0
	psadbw	%xmm4, %xmm0
	pextrb	$0, %xmm0, %r9d
	addl	%r9d, %esi
	addq	$64, %r8
	cmpq	%r8, %rcx
	jne	.LBB1ac6ee2c_83
.LBB1ac6ee2c_84:
	movq	96(%rsp), %r8
	testq	%rdx, %rdx
	je	.LBB1ac6ee2c_92
	cmpl	$8, %edx
	jae	.LBB1ac6ee2c_87
	xorl	%edi, %edi
	xorl	%r9d, %r9d
	jmp	.LBB1ac6ee2c_90
.LBB1ac6ee2c_87:
	movq	64(%rsp), %r9
	andl	$56, %r9d
	leaq	(%rcx,%r12), %rdi
	addq	$4, %rdi
	pxor	%xmm0, %xmm0
	xorl	%r10d, %r10d
	pxor	%xmm1, %xmm1
	pxor	%xmm2, %xmm2
	.p2align	4
.LBB1ac6ee2c_88:
	movd	-4(%rdi,%r10), %xmm4
	movdqa	.LCPI1ac6ee2c_5(%rip), %xmm3
	movdqa	.LCPI1ac6ee2c_7(%rip), %xmm5
	movdqa	%xmm4, %xmm6
	pmaxub	%xmm5, %xmm6
	pcmpeqb	%xmm4, %xmm6
	pand	%xmm3, %xmm4
	pcmpeqb	%xmm0, %xmm4
	pmovzxbd	%xmm4, %xmm4
	movdqa	.LCPI1ac6ee2c_6(%rip), %xmm7
	pand	%xmm7, %xmm4
	paddd	%xmm1, %xmm4
	movd	(%rdi,%r10), %xmm8
	pand	%xmm8, %xmm3
	pcmpeqb	%xmm0, %xmm3
	pmovzxbd	%xmm3, %xmm3
	pand	%xmm7, %xmm3
	paddd	%xmm2, %xmm3
	pcmpeqd	%xmm2, %xmm2
	pxor	%xmm2, %xmm6
	pmovzxbd	%xmm6, %xmm1
	pand	%xmm7, %xmm1
	paddd	%xmm4, %xmm1
	pmaxub	%xmm8, %xmm5
	pcmpeqb	%xmm8, %xmm5
	pxor	%xmm2, %xmm5
	pmovzxbd	%xmm5, %xmm2
	pand	%xmm7, %xmm2
	paddd	%xmm3, %xmm2
	addq	$8, %r10
	cmpq	%r10, %r9
	jne	.LBB1ac6ee2c_88
	paddd	%xmm1, %xmm2
	pshufd	$238, %xmm2, %xmm0
	paddd	%xmm2, %xmm0
	pshufd	$85, %xmm0, %xmm1
	paddd	%xmm0, %xmm1
	movd	%xmm1, %edi
	cmpl	%r9d, %edx
	je	.LBB1ac6ee2c_92
.LBB1ac6ee2c_90:
	addq	%r12, %rcx
	.p2align	4
.LBB1ac6ee2c_91:
	movzbl	(%rcx,%r9), %r10d
	movl	%r10d, %r11d
	andb	$15, %r11b
	xorl	%ebp, %ebp
	cmpb	$16, %r10b
	setb	%bpl
	cmpb	$1, %r11b
	adcl	%ebp, %edi
	incq	%r9
	cmpq	%r9, %rdx
	jne	.LBB1ac6ee2c_91
.LBB1ac6ee2c_92:
	addl	%esi, %edi
	movw	$0, (%r14)
	movb	%r13b, 8(%r14)
	movb	%bl, 9(%r14)
	movw	$0, 10(%r14)
	movl	%edi, 12(%r14)
	movq	%r12, 16(%r14)
	movq	64(%rsp), %rcx
	movq	%rcx, 24(%r14)
	movq	%r15, 32(%r14)
	movq	%rax, 40(%r14)
	movq	%r8, 48(%r14)
	jmp	.LBB1ac6ee2c_93
.Lfunc_end1ac6ee2c:
	.size	hll_registers.nibble_registers.NibbleRegisters.from_values.8a2f8b2564a2651f, .Lfunc_end1ac6ee2c-hll_registers.nibble_registers.NibbleRegisters.from_values.8a2f8b2564a2651f

	.section	.text.unlikely.std_alloc.vec.Vec.grow_amortized.f10ba080d3fae16a,"ax",@progbits
	.p2align	4
	.type	std_alloc.vec.Vec.grow_amortized.f10ba080d3fae16a,@function
std_alloc.vec.Vec.grow_amortized.f10ba080d3fae16a:
	movq	8(%rdi), %rax
	cmpq	$-1, %rax
	je	.LBB3288c59b_5
	pushq	%r14
	pushq	%rbx
	pushq	%rax
	movq	16(%rdi), %rcx
	cmpq	$4, %rax
	movl	$3, %ebx
	cmovaeq	%rax, %rbx
	incq	%rbx
	movq	%rcx, %rsi
	shrq	$62, %rsi
	leaq	(%rcx,%rcx), %rdx
	cmpq	%rdx, %rbx
	cmovaq	%rbx, %rdx
	testq	%rsi, %rsi
	cmoveq	%rdx, %rbx
	movabsq	$96076792050570581, %rsi
	cmpq	%rsi, %rbx
	ja	.LBB3288c59b_6
	testq	%rcx, %rcx
	je	.LBB3288c59b_8
	movq	%rdi, %r14
	movq	(%rdi), %rdi
	shlq	$5, %rax
	leaq	(%rax,%rax,2), %rsi
	movq	%rbx, %rax
	shlq	$5, %rax
	leaq	(%rax,%rax,2), %rdx
	movl	$8, %ecx
	callq	rattle_realloc@PLT
	testb	$1, %al
	je	.LBB3288c59b_6
.LBB3288c59b_9:
	movq	%rdx, (%r14)
	movq	%rbx, 16(%r14)
	movb	$1, %al
	addq	$8, %rsp
	popq	%rbx
	popq	%r14
	retq
.LBB3288c59b_5:
	xorl	%eax, %eax
	retq
.LBB3288c59b_8:
	movq	%rdi, %r14
	shlq	$5, %rdx
	leaq	(%rdx,%rdx,2), %rdi
	movl	$8, %esi
	callq	rattle_alloc@PLT
	testb	$1, %al
	jne	.LBB3288c59b_9
.LBB3288c59b_6:
	xorl	%eax, %eax
	addq	$8, %rsp
	popq	%rbx
	popq	%r14
	retq
.Lfunc_end3288c59b:
	.size	std_alloc.vec.Vec.grow_amortized.f10ba080d3fae16a, .Lfunc_end3288c59b-std_alloc.vec.Vec.grow_amortized.f10ba080d3fae16a

	.section	.text.hll_sketch.mode.Mode.drop.309f015d8caa795c,"ax",@progbits
	.p2align	4
	.type	hll_sketch.mode.Mode.drop.309f015d8caa795c,@function
hll_sketch.mode.Mode.drop.309f015d8caa795c:
	pushq	%rbp
	pushq	%r15
	pushq	%r14
	pushq	%rbx
	pushq	%rax
	movq	%rdi, %rcx
	movzbl	(%rdi), %edx
	movq	24(%rdi), %rax
	movq	32(%rdi), %rdi
	movq	40(%rcx), %r14
	movq	48(%rcx), %rbx
	leaq	.LJTI7ccdd370_0(%rip), %rsi
	movslq	(%rsi,%rdx,4), %rdx
	addq	%rsi, %rdx
	jmpq	*%rdx
.LBB7ccdd370_1:
	testb	%al, %al
	je	.LBB7ccdd370_3
	testq	%rbx, %rbx
	jne	.LBB7ccdd370_12
	jmp	.LBB7ccdd370_3
.LBB7ccdd370_10:
	testq	%r14, %r14
	je	.LBB7ccdd370_3
	movq	%rax, %rdi
.LBB7ccdd370_12:
	addq	$8, %rsp
	popq	%rbx
	popq	%r14
	popq	%r15
	popq	%rbp
	jmp	rattle_dealloc@PLT
.LBB7ccdd370_4:
	testq	%rdi, %rdi
	je	.LBB7ccdd370_6
	movq	16(%rcx), %rdi
	callq	rattle_dealloc@PLT
.LBB7ccdd370_6:
	testb	%r14b, %r14b
	je	.LBB7ccdd370_3
	movq	32(%rbx), %r14
	movq	48(%rbx), %r15
	movzbl	24(%rbx), %ebp
	movq	%rbx, %rdi
	callq	rattle_dealloc@PLT
	testb	%bpl, %bpl
	je	.LBB7ccdd370_3
	testq	%r15, %r15
	je	.LBB7ccdd370_3
	movq	%r14, %rdi
	jmp	.LBB7ccdd370_12
.LBB7ccdd370_3:
	addq	$8, %rsp
	popq	%rbx
	popq	%r14
	popq	%r15
	popq	%rbp
	retq
.Lfunc_end7ccdd370:
	.size	hll_sketch.mode.Mode.drop.309f015d8caa795c, .Lfunc_end7ccdd370-hll_sketch.mode.Mode.drop.309f015d8caa795c
	.section	.rodata.hll_sketch.mode.Mode.drop.309f015d8caa795c,"a",@progbits
	.p2align	2, 0x0
.LJTI7ccdd370_0:
	.long	.LBB7ccdd370_1-.LJTI7ccdd370_0
	.long	.LBB7ccdd370_1-.LJTI7ccdd370_0
	.long	.LBB7ccdd370_4-.LJTI7ccdd370_0
	.long	.LBB7ccdd370_10-.LJTI7ccdd370_0
	.long	.LBB7ccdd370_10-.LJTI7ccdd370_0

	.section	.rodata.cst16,"aM",@progbits,16
	.p2align	4, 0x0
.LCPIad14d42f_0:
	.zero	16,15
.LCPIad14d42f_1:
	.zero	16,239
.LCPIad14d42f_2:
	.zero	16,240
.LCPIad14d42f_3:
	.byte	15
	.byte	15
	.byte	15
	.byte	15
	.byte	15
	.byte	15
	.byte	15
	.byte	15
	.zero	1
	.zero	1
	.zero	1
	.zero	1
	.zero	1
	.zero	1
	.zero	1
	.zero	1
.LCPIad14d42f_4:
	.byte	240
	.byte	240
	.byte	240
	.byte	240
	.byte	240
	.byte	240
	.byte	240
	.byte	240
	.byte	0
	.byte	0
	.byte	0
	.byte	0
	.byte	0
	.byte	0
	.byte	0
	.byte	0
.LCPIad14d42f_5:
	.zero	16,1
.LCPIad14d42f_6:
	.byte	15
	.byte	15
	.byte	15
	.byte	15
	.zero	1
	.zero	1
	.zero	1
	.zero	1
	.zero	1
	.zero	1
	.zero	1
	.zero	1
	.zero	1
	.zero	1
	.zero	1
	.zero	1
.LCPIad14d42f_7:
	.long	1
	.long	1
	.long	1
	.long	1
.LCPIad14d42f_8:
	.byte	16
	.byte	16
	.byte	16
	.byte	16
	.zero	1
	.zero	1
	.zero	1
	.zero	1
	.zero	1
	.zero	1
	.zero	1
	.zero	1
	.zero	1
	.zero	1
	.zero	1
	.zero	1
	.section	.text.hll_registers.nibble_registers.NibbleRegisters.rise.8a2f8b2564a2651f,"ax",@progbits
	.p2align	4
	.type	hll_registers.nibble_registers.NibbleRegisters.rise.8a2f8b2564a2651f,@function
hll_registers.nibble_registers.NibbleRegisters.rise.8a2f8b2564a2651f:
	pushq	%rbp
	pushq	%r15
	pushq	%r14
	pushq	%r13
	pushq	%r12
	pushq	%rbx
	subq	$376, %rsp
	movl	%edx, %ebp
	movl	%esi, %r14d
	movq	%rdi, %rbx
	movzbl	1(%rdi), %r13d
	movzbl	(%rdi), %eax
	movb	$63, %r15b
	movl	%esi, %r12d
	movq	%rax, 8(%rsp)
	cmpq	$31, %rax
	ja	.LBBad14d42f_8
	leal	15(%r13), %edx
	movzbl	%dl, %eax
	cmpb	$63, %al
	movl	$63, %r15d
	cmovbl	%eax, %r15d
	movl	$1, %eax
	movq	8(%rsp), %rcx
	shlq	%cl, %rax
	leal	1(%r13), %ecx
	xorl	%esi, %esi
	.p2align	4
.LBBad14d42f_2:
	movl	%ebp, %edi
	cmpq	%rsi, %r12
	je	.LBBad14d42f_4
	movq	8(%rbx), %rdi
	movq	%rsi, %r8
	shrq	%r8
	movzbl	(%rdi,%r8), %edi
	movl	%edi, %r8d
	andb	$15, %r8b
	shrb	$4, %dil
	testb	$1, %sil
	movzbl	%r8b, %r8d
	movzbl	%dil, %edi
	cmovel	%r8d, %edi
	addb	%r13b, %dil
.LBBad14d42f_4:
	movzbl	%dil, %edi
	movzbl	%r15b, %r15d
	cmpb	%r15b, %dil
	cmovbl	%edi, %r15d
	cmpb	%cl, %r15b
	je	.LBBad14d42f_7
	incq	%rsi
	cmpq	%rsi, %rax
	jne	.LBBad14d42f_2
	cmpb	%dl, %r15b
	jb	.LBBad14d42f_8
	jmp	.LBBad14d42f_12
.LBBad14d42f_7:
	movl	%ecx, %r15d
	cmpb	%dl, %r15b
	jae	.LBBad14d42f_12
.LBBad14d42f_8:
	pxor	%xmm0, %xmm0
	movdqa	%xmm0, 48(%rsp)
	leal	15(%r15), %ecx
	movzbl	32(%rbx), %eax
	movl	%ecx, 4(%rsp)
	cmpb	%bpl, %cl
	movq	%r12, 32(%rsp)
	jbe	.LBBad14d42f_38
	cmpb	$1, %al
	jne	.LBBad14d42f_41
	movq	40(%rbx), %rcx
	cmpb	$0, 24(%rcx)
	je	.LBBad14d42f_28
	movq	40(%rcx), %rdx
	movq	32(%rcx), %rcx
	jmp	.LBBad14d42f_29
.LBBad14d42f_12:
	movb	$63, %r15b
	xorl	%edx, %edx
	jmp	.LBBad14d42f_15
	.p2align	4
.LBBad14d42f_13:
	addb	%r13b, %cl
.LBBad14d42f_14:
	movzbl	%cl, %ecx
	movzbl	%r15b, %r15d
	cmpb	%r15b, %cl
	cmovbl	%ecx, %r15d
	incq	%rdx
	cmpq	%rax, %rdx
	je	.LBBad14d42f_8
.LBBad14d42f_15:
	movl	%ebp, %ecx
	cmpq	%r12, %rdx
	je	.LBBad14d42f_14
	movq	8(%rbx), %rcx
	movq	%rdx, %rsi
	shrq	%rsi
	movzbl	(%rcx,%rsi), %ecx
	movl	%ecx, %esi
	andb	$15, %sil
	shrb	$4, %cl
	testb	$1, %dl
	movzbl	%sil, %esi
	movzbl	%cl, %ecx
	cmovel	%esi, %ecx
	cmpb	$15, %cl
	jne	.LBBad14d42f_13
	cmpb	$1, 32(%rbx)
	jne	.LBBad14d42f_155
	movq	40(%rbx), %rcx
	cmpb	$0, 24(%rcx)
	je	.LBBad14d42f_20
	movq	32(%rcx), %rsi
	movq	40(%rcx), %rdi
	jmp	.LBBad14d42f_21
.LBBad14d42f_20:
	leaq	28(%rcx), %rsi
	movl	$8, %edi
.LBBad14d42f_21:
	movzbl	8(%rcx), %ecx
	movl	%edx, %r8d
	andl	$67108863, %r8d
	shrl	%cl, %r8d
	movq	$-1, %r9
	shlq	%cl, %r9
	testq	%rdi, %rdi
	je	.LBBad14d42f_155
	orl	$1, %r8d
	notq	%r9
	movq	%rdx, %r10
	.p2align	4
.LBBad14d42f_23:
	andq	%r9, %r10
	movl	(%rsi,%r10,4), %ecx
	testq	%rcx, %rcx
	je	.LBBad14d42f_26
	movl	%ecx, %r11d
	andl	$67108863, %r11d
	cmpq	%r11, %rdx
	je	.LBBad14d42f_26
	addq	%r8, %r10
	decq	%rdi
	jne	.LBBad14d42f_23
	jmp	.LBBad14d42f_155
	.p2align	4
.LBBad14d42f_26:
	testl	%ecx, %ecx
	je	.LBBad14d42f_155
	shrl	$26, %ecx
	jmp	.LBBad14d42f_14
.LBBad14d42f_28:
	addq	$28, %rcx
	movl	$8, %edx
	.p2align	4
.LBBad14d42f_29:
	cmpq	$4, %rdx
	jae	.LBBad14d42f_33
	.p2align	4
.LBBad14d42f_30:
	testq	%rdx, %rdx
	je	.LBBad14d42f_41
	decq	%rdx
	movl	(%rcx), %esi
	addq	$4, %rcx
	testl	%esi, %esi
	je	.LBBad14d42f_30
	shrl	$26, %esi
	cmpb	%sil, 4(%rsp)
	jbe	.LBBad14d42f_29
	jmp	.LBBad14d42f_38
	.p2align	4
.LBBad14d42f_33:
	cmpl	$0, (%rcx)
	jne	.LBBad14d42f_30
	cmpl	$0, 4(%rcx)
	jne	.LBBad14d42f_30
	cmpl	$0, 8(%rcx)
	jne	.LBBad14d42f_30
	cmpl	$0, 12(%rcx)
	jne	.LBBad14d42f_30
	addq	$16, %rcx
	addq	$-4, %rdx
	cmpq	$3, %rdx
	ja	.LBBad14d42f_33
	jmp	.LBBad14d42f_30
.LBBad14d42f_38:
	cmpb	$1, %al
	jne	.LBBad14d42f_42
	movq	%r13, 24(%rsp)
	movq	%r14, 16(%rsp)
	movq	40(%rbx), %r10
	pxor	%xmm0, %xmm0
	movdqa	%xmm0, 80(%rsp)
	movq	$0, 96(%rsp)
	movdqu	%xmm0, 112(%rsp)
	movdqu	%xmm0, 128(%rsp)
	movdqu	%xmm0, 144(%rsp)
	movdqu	%xmm0, 160(%rsp)
	movdqu	%xmm0, 176(%rsp)
	movdqu	%xmm0, 192(%rsp)
	movdqu	%xmm0, 208(%rsp)
	movdqu	%xmm0, 224(%rsp)
	movdqa	%xmm0, 240(%rsp)
	movdqa	%xmm0, 256(%rsp)
	movdqa	%xmm0, 272(%rsp)
	movdqa	%xmm0, 288(%rsp)
	movdqa	%xmm0, 304(%rsp)
	movdqa	%xmm0, 320(%rsp)
	movdqa	%xmm0, 336(%rsp)
	movdqa	%xmm0, 352(%rsp)
	movq	$0, 368(%rsp)
	movq	$0, 104(%rsp)
	cmpb	$0, 24(%r10)
	je	.LBBad14d42f_43
	movq	32(%r10), %r13
	movq	40(%r10), %r14
	jmp	.LBBad14d42f_44
.LBBad14d42f_41:
	movq	$0, 16(%rsp)
	movq	$0, 8(%rsp)
	movq	$0, 24(%rsp)
	jmp	.LBBad14d42f_86
.LBBad14d42f_42:
	xorl	%ecx, %ecx
	xorl	%edx, %edx
	jmp	.LBBad14d42f_77
.LBBad14d42f_43:
	leaq	28(%r10), %r13
	movl	$8, %r14d
.LBBad14d42f_44:
	leaq	112(%rsp), %r11
.LBBad14d42f_45:
	cmpq	$4, %r14
	jae	.LBBad14d42f_53
	.p2align	4
.LBBad14d42f_46:
	testq	%r14, %r14
	je	.LBBad14d42f_74
	decq	%r14
	movl	(%r13), %r12d
	addq	$4, %r13
	testq	%r12, %r12
	je	.LBBad14d42f_46
	movl	%r12d, %eax
	shrl	$26, %eax
	cmpb	%al, 4(%rsp)
	ja	.LBBad14d42f_45
	andl	$67108863, %r12d
	movzbl	(%r10), %ecx
	cmpb	$1, 104(%rsp)
	movq	%r10, 72(%rsp)
	jne	.LBBad14d42f_67
	movb	%cl, 3(%rsp)
	movl	%eax, 44(%rsp)
	cmpb	$0, 136(%rsp)
	je	.LBBad14d42f_58
	movq	152(%rsp), %rcx
	cmpq	$256, %rcx
	movl	$256, %eax
	cmovbq	%rcx, %rax
	testq	%rcx, %rcx
	je	.LBBad14d42f_63
	movq	120(%rsp), %rcx
	movq	144(%rsp), %rdx
	jmp	.LBBad14d42f_59
	.p2align	4
.LBBad14d42f_53:
	cmpl	$0, (%r13)
	jne	.LBBad14d42f_46
	cmpl	$0, 4(%r13)
	jne	.LBBad14d42f_46
	cmpl	$0, 8(%r13)
	jne	.LBBad14d42f_46
	cmpl	$0, 12(%r13)
	jne	.LBBad14d42f_46
	addq	$16, %r13
	addq	$-4, %r14
	cmpq	$3, %r14
	ja	.LBBad14d42f_53
	jmp	.LBBad14d42f_46
.LBBad14d42f_58:
	movl	$8, %eax
	movq	120(%rsp), %rcx
	leaq	140(%rsp), %rdx
.LBBad14d42f_59:
	movl	%r12d, %esi
	shrl	%cl, %esi
	movq	$-1, %rdi
	shlq	%cl, %rdi
	orl	$1, %esi
	notq	%rdi
	movq	%r12, %rcx
	.p2align	4
.LBBad14d42f_60:
	andq	%rdi, %rcx
	movl	(%rdx,%rcx,4), %r8d
	testl	%r8d, %r8d
	je	.LBBad14d42f_64
	movl	%r8d, %r9d
	andl	$67108863, %r9d
	cmpl	%r12d, %r9d
	je	.LBBad14d42f_64
	addq	%rsi, %rcx
	decq	%rax
	jne	.LBBad14d42f_60
.LBBad14d42f_63:
	movq	%r11, %rdi
	leaq	208(%rsp), %rsi
	movl	%r12d, %edx
	callq	hll_coupons.aux_map_builder.has_mark.8a2f8b2564a2651f
	movq	72(%rsp), %r10
	jmp	.LBBad14d42f_65
.LBBad14d42f_64:
	testl	%r8d, %r8d
	setne	%dl
	xorl	%eax, %eax
.LBBad14d42f_65:
	testb	%al, %al
	jne	.LBBad14d42f_68
	testb	$1, %dl
	leaq	112(%rsp), %r11
	movl	44(%rsp), %eax
	movzbl	3(%rsp), %ecx
	jne	.LBBad14d42f_45
.LBBad14d42f_67:
	movzbl	%cl, %esi
	movzbl	%al, %ecx
	leaq	104(%rsp), %rdi
	movl	%r12d, %edx
	movq	%r11, %r12
	callq	hll_registers.exception_map.add_exception.8a2f8b2564a2651f
	movq	%r12, %r11
	movq	72(%rsp), %r10
	testb	%al, %al
	je	.LBBad14d42f_45
.LBBad14d42f_68:
	cmpb	$1, 104(%rsp)
	jne	.LBBad14d42f_153
	movq	184(%rsp), %r14
	movq	192(%rsp), %rbx
	movq	200(%rsp), %rax
	movq	%rax, 32(%rsp)
	movzbl	208(%rsp), %eax
	movb	%al, 4(%rsp)
	movq	216(%rsp), %rax
	movq	%rax, 16(%rsp)
	movq	232(%rsp), %rax
	movq	%rax, 8(%rsp)
	cmpb	$0, 136(%rsp)
	movl	%edx, %r13d
	je	.LBBad14d42f_72
	cmpq	$0, 160(%rsp)
	je	.LBBad14d42f_72
	movq	144(%rsp), %rdi
	callq	rattle_dealloc@PLT
	movl	%r13d, %edx
.LBBad14d42f_72:
	testq	%rbx, %rbx
	je	.LBBad14d42f_148
	leaq	64(%r14), %r12
	jmp	.LBBad14d42f_144
.LBBad14d42f_74:
	movzbl	104(%rsp), %eax
	movq	%rax, 240(%rsp)
	movups	(%r11), %xmm0
	movups	16(%r11), %xmm1
	movups	32(%r11), %xmm2
	movdqu	48(%r11), %xmm3
	movups	%xmm0, 248(%rsp)
	movups	%xmm1, 264(%rsp)
	movups	%xmm2, 280(%rsp)
	movdqu	%xmm3, 296(%rsp)
	movdqu	176(%rsp), %xmm0
	movdqu	192(%rsp), %xmm1
	movdqu	216(%rsp), %xmm2
	movdqu	%xmm0, 312(%rsp)
	movdqu	%xmm1, 328(%rsp)
	movzbl	208(%rsp), %eax
	movq	%rax, 344(%rsp)
	movdqa	%xmm2, 352(%rsp)
	movq	232(%rsp), %rax
	movq	%rax, 368(%rsp)
	leaq	80(%rsp), %rdi
	leaq	240(%rsp), %rsi
	callq	hll_registers.exception_map.built.8a2f8b2564a2651f
	cmpb	$0, 80(%rsp)
	je	.LBBad14d42f_76
	movzbl	81(%rsp), %edx
	jmp	.LBBad14d42f_153
.LBBad14d42f_76:
	movzbl	88(%rsp), %ecx
	movq	96(%rsp), %rdx
	movq	16(%rsp), %r14
	movq	32(%rsp), %r12
	movq	24(%rsp), %r13
.LBBad14d42f_77:
	movzbl	%cl, %ecx
	movq	%rcx, 48(%rsp)
	movq	%rdx, 56(%rsp)
	movb	$1, %al
	movq	%rax, 16(%rsp)
	cmpb	%bpl, 4(%rsp)
	jbe	.LBBad14d42f_79
	movq	%rdx, 24(%rsp)
	movq	%rcx, 8(%rsp)
	jmp	.LBBad14d42f_86
.LBBad14d42f_79:
	movzbl	%bpl, %ecx
	leaq	48(%rsp), %rdi
	movq	8(%rsp), %rsi
	movl	%r14d, %edx
	callq	hll_registers.exception_map.put_exception.8a2f8b2564a2651f
	movzbl	48(%rsp), %ecx
	testb	%al, %al
	je	.LBBad14d42f_85
	cmpl	$1, %ecx
	jne	.LBBad14d42f_153
	movl	%edx, %r15d
	movq	56(%rsp), %rdi
	movq	32(%rdi), %rbx
	movq	48(%rdi), %r14
	movzbl	24(%rdi), %ebp
	callq	rattle_dealloc@PLT
	testb	%bpl, %bpl
	je	.LBBad14d42f_84
	testq	%r14, %r14
	je	.LBBad14d42f_84
	movq	%rbx, %rdi
	callq	rattle_dealloc@PLT
.LBBad14d42f_84:
	movl	%r15d, %edx
.LBBad14d42f_153:
	movb	$1, %al
	jmp	.LBBad14d42f_154
.LBBad14d42f_85:
	movq	%rcx, 8(%rsp)
	movq	56(%rsp), %rax
	movq	%rax, 24(%rsp)
.LBBad14d42f_86:
	movq	8(%rbx), %rdx
	shrl	%r14d
	testb	$1, %r12b
	movl	$15, %esi
	movl	$240, %r8d
	cmovel	%esi, %r8d
	movq	16(%rbx), %rdi
	movq	%r14, %rcx
	orb	%r8b, (%rdx,%r14)
	movl	%r15d, %esi
	subb	%r13b, %sil
	jne	.LBBad14d42f_90
.LBBad14d42f_87:
	cmpb	$1, 32(%rbx)
	movq	32(%rsp), %r14
	jne	.LBBad14d42f_113
	movq	40(%rbx), %rsi
	cmpb	$0, 24(%rsi)
	je	.LBBad14d42f_100
	movq	40(%rsi), %rdi
	movq	32(%rsi), %rsi
	jmp	.LBBad14d42f_101
.LBBad14d42f_90:
	movq	%rdi, %r10
	shrq	$5, %r10
	movq	%rdi, %r8
	andq	$-32, %r8
	addq	%rdx, %r8
	movl	%edi, %r9d
	andl	$31, %r9d
	testq	%r10, %r10
	je	.LBBad14d42f_132
	testq	%r9, %r9
	je	.LBBad14d42f_139
	andl	$24, %edi
	xorl	%r11d, %r11d
	jmp	.LBBad14d42f_94
	.p2align	4
.LBBad14d42f_93:
	incb	%r11b
	cmpb	%sil, %r11b
	je	.LBBad14d42f_87
.LBBad14d42f_94:
	movq	%rdx, %r14
	movq	%r10, %r13
	.p2align	4
.LBBad14d42f_95:
	movdqu	(%r14), %xmm1
	movdqu	16(%r14), %xmm3
	movdqa	.LCPIad14d42f_0(%rip), %xmm0
	movdqa	.LCPIad14d42f_1(%rip), %xmm2
	movdqa	%xmm1, %xmm4
	pminub	%xmm2, %xmm4
	pminub	%xmm3, %xmm2
	pcmpeqb	%xmm3, %xmm2
	movdqa	.LCPIad14d42f_2(%rip), %xmm5
	pand	%xmm5, %xmm2
	paddb	%xmm3, %xmm2
	pand	%xmm0, %xmm3
	pcmpeqb	%xmm1, %xmm4
	pand	%xmm5, %xmm4
	paddb	%xmm1, %xmm4
	pand	%xmm0, %xmm1
	pcmpeqb	%xmm0, %xmm1
	pcmpeqd	%xmm5, %xmm5
	pxor	%xmm5, %xmm1
	pcmpeqb	%xmm0, %xmm3
	pxor	%xmm5, %xmm3
	paddb	%xmm1, %xmm4
	paddb	%xmm3, %xmm2
	movdqu	%xmm4, (%r14)
	movdqu	%xmm2, 16(%r14)
	addq	$32, %r14
	decq	%r13
	jne	.LBBad14d42f_95
	xorl	%r14d, %r14d
	cmpl	$8, %r9d
	jb	.LBBad14d42f_99
	.p2align	4
.LBBad14d42f_97:
	movq	(%r8,%r14), %xmm0
	movdqa	.LCPIad14d42f_3(%rip), %xmm1
	movq	.LCPIad14d42f_4(%rip), %xmm2
	movdqa	%xmm0, %xmm3
	pmaxub	%xmm2, %xmm3
	pcmpeqb	%xmm0, %xmm3
	pandn	%xmm2, %xmm3
	paddb	%xmm0, %xmm3
	pand	%xmm1, %xmm0
	pcmpeqb	%xmm1, %xmm0
	pcmpeqd	%xmm1, %xmm1
	pxor	%xmm0, %xmm1
	paddb	%xmm1, %xmm3
	movq	%xmm3, (%r8,%r14)
	addq	$8, %r14
	cmpq	%r14, %rdi
	jne	.LBBad14d42f_97
	movq	%rdi, %r14
	cmpl	%edi, %r9d
	je	.LBBad14d42f_93
	.p2align	4
.LBBad14d42f_99:
	movzbl	(%r8,%r14), %r12d
	movl	%r12d, %r13d
	notb	%r13b
	andb	$15, %r13b
	cmpb	$-16, %r12b
	setae	%al
	shlb	$4, %al
	addb	%r12b, %al
	cmpb	$1, %r13b
	adcb	$-1, %al
	addb	$-16, %al
	movb	%al, (%r8,%r14)
	incq	%r14
	cmpq	%r14, %r9
	jne	.LBBad14d42f_99
	jmp	.LBBad14d42f_93
.LBBad14d42f_100:
	addq	$28, %rsi
	movl	$8, %edi
	.p2align	4
.LBBad14d42f_101:
	cmpq	$4, %rdi
	jae	.LBBad14d42f_107
	.p2align	4
.LBBad14d42f_102:
	testq	%rdi, %rdi
	je	.LBBad14d42f_113
	decq	%rdi
	movl	(%rsi), %r9d
	addq	$4, %rsi
	testq	%r9, %r9
	je	.LBBad14d42f_102
	movl	%r9d, %r8d
	shrl	$26, %r8d
	cmpb	%r8b, 4(%rsp)
	jbe	.LBBad14d42f_101
	movl	%r9d, %r10d
	andl	$67108862, %r10d
	subb	%r15b, %r8b
	shrl	%r10d
	movzbl	(%rdx,%r10), %r11d
	testb	$1, %r9b
	jne	.LBBad14d42f_112
	andb	$-16, %r11b
	addb	%r8b, %r11b
	movb	%r11b, (%rdx,%r10)
	jmp	.LBBad14d42f_101
	.p2align	4
.LBBad14d42f_107:
	cmpl	$0, (%rsi)
	jne	.LBBad14d42f_102
	cmpl	$0, 4(%rsi)
	jne	.LBBad14d42f_102
	cmpl	$0, 8(%rsi)
	jne	.LBBad14d42f_102
	cmpl	$0, 12(%rsi)
	jne	.LBBad14d42f_102
	addq	$16, %rsi
	addq	$-4, %rdi
	cmpq	$3, %rdi
	ja	.LBBad14d42f_107
	jmp	.LBBad14d42f_102
.LBBad14d42f_112:
	andb	$15, %r11b
	shlb	$4, %r8b
	orb	%r11b, %r8b
	movb	%r8b, (%rdx,%r10)
	jmp	.LBBad14d42f_101
.LBBad14d42f_113:
	subb	%r15b, %bpl
	movzbl	%bpl, %eax
	cmpb	$15, %al
	movl	$15, %edi
	cmovbl	%eax, %edi
	movzbl	(%rdx,%rcx), %esi
	testb	$1, %r14b
	jne	.LBBad14d42f_115
	andb	$-16, %sil
	orb	%dil, %sil
	movq	16(%rsp), %rax
	movb	%sil, (%rdx,%rcx)
	testb	%al, %al
	jne	.LBBad14d42f_116
	jmp	.LBBad14d42f_120
.LBBad14d42f_115:
	andb	$15, %sil
	shlb	$4, %dil
	orb	%sil, %dil
	movl	%edi, %esi
	movq	16(%rsp), %rax
	movb	%sil, (%rdx,%rcx)
	testb	%al, %al
	je	.LBBad14d42f_120
.LBBad14d42f_116:
	movzbl	32(%rbx), %eax
	movq	40(%rbx), %rdi
	movq	8(%rsp), %rcx
	movq	%rcx, 32(%rbx)
	movq	24(%rsp), %rcx
	movq	%rcx, 40(%rbx)
	cmpb	$1, %al
	jne	.LBBad14d42f_120
	movq	32(%rdi), %r14
	movq	48(%rdi), %r12
	movzbl	24(%rdi), %ebp
	callq	rattle_dealloc@PLT
	testb	%bpl, %bpl
	je	.LBBad14d42f_120
	testq	%r12, %r12
	je	.LBBad14d42f_120
	movq	%r14, %rdi
	callq	rattle_dealloc@PLT
.LBBad14d42f_120:
	movb	%r15b, 1(%rbx)
	movq	8(%rbx), %rax
	movq	16(%rbx), %rdx
	movq	%rdx, %r8
	shrq	$6, %r8
	movl	%edx, %ecx
	andl	$63, %ecx
	xorl	%edi, %edi
	movl	$0, %esi
	testq	%r8, %r8
	je	.LBBad14d42f_123
	leaq	48(%rax), %r9
	xorl	%esi, %esi
	.p2align	4
.LBBad14d42f_122:
	movdqa	.LCPIad14d42f_0(%rip), %xmm0
	movdqu	-48(%r9), %xmm3
	movdqu	-32(%r9), %xmm5
	movdqu	-16(%r9), %xmm2
	movdqu	(%r9), %xmm1
	movdqa	%xmm3, %xmm6
	pminub	%xmm0, %xmm6
	pcmpeqb	%xmm3, %xmm6
	pand	%xmm0, %xmm3
	movdqa	%xmm5, %xmm7
	pminub	%xmm0, %xmm7
	pcmpeqb	%xmm5, %xmm7
	pand	%xmm0, %xmm5
	pxor	%xmm4, %xmm4
	pcmpeqb	%xmm4, %xmm3
	movdqa	.LCPIad14d42f_5(%rip), %xmm8
	pand	%xmm8, %xmm3
	pcmpeqb	%xmm4, %xmm5
	pand	%xmm8, %xmm5
	psubb	%xmm6, %xmm3
	psubb	%xmm7, %xmm5
	movdqa	%xmm2, %xmm6
	pminub	%xmm0, %xmm6
	pcmpeqb	%xmm2, %xmm6
	pand	%xmm0, %xmm2
	movdqa	%xmm1, %xmm7
	pand	%xmm0, %xmm7
	pcmpeqb	%xmm4, %xmm2
	pcmpeqb	%xmm4, %xmm7
	psubb	%xmm6, %xmm3
	psubb	%xmm2, %xmm3
	pminub	%xmm1, %xmm0
	pcmpeqb	%xmm1, %xmm0
	psubb	%xmm0, %xmm5
	psubb	%xmm7, %xmm5
	paddb	%xmm3, %xmm5
	pshufd	$238, %xmm5, %xmm0
	paddb	%xmm5, %xmm0
	psadbw	%xmm4, %xmm0
	pextrb	$0, %xmm0, %r10d
	addl	%r10d, %esi
	addq	$64, %r9
	decq	%r8
	jne	.LBBad14d42f_122
.LBBad14d42f_123:
	testq	%rcx, %rcx
	je	.LBBad14d42f_131
	movq	%rdx, %r8
	andq	$-64, %r8
	cmpl	$8, %ecx
	jae	.LBBad14d42f_126
	xorl	%edi, %edi
	xorl	%edx, %edx
	jmp	.LBBad14d42f_129
.LBBad14d42f_126:
	andl	$56, %edx
	leaq	(%r8,%rax), %rdi
	addq	$4, %rdi
	pxor	%xmm0, %xmm0
	xorl	%r9d, %r9d
	pxor	%xmm1, %xmm1
	pxor	%xmm2, %xmm2
	.p2align	4
.LBBad14d42f_127:
	movd	-4(%rdi,%r9), %xmm4
	movdqa	.LCPIad14d42f_6(%rip), %xmm3
	movdqa	.LCPIad14d42f_8(%rip), %xmm5
	movdqa	%xmm4, %xmm6
	pmaxub	%xmm5, %xmm6
	pcmpeqb	%xmm4, %xmm6
	pand	%xmm3, %xmm4
	pcmpeqb	%xmm0, %xmm4
	pmovzxbd	%xmm4, %xmm4
	movdqa	.LCPIad14d42f_7(%rip), %xmm7
	pand	%xmm7, %xmm4
	paddd	%xmm1, %xmm4
	movd	(%rdi,%r9), %xmm8
	pand	%xmm8, %xmm3
	pcmpeqb	%xmm0, %xmm3
	pmovzxbd	%xmm3, %xmm3
	pand	%xmm7, %xmm3
	paddd	%xmm2, %xmm3
	pcmpeqd	%xmm2, %xmm2
	pxor	%xmm2, %xmm6
	pmovzxbd	%xmm6, %xmm1
	pand	%xmm7, %xmm1
	paddd	%xmm4, %xmm1
	pmaxub	%xmm8, %xmm5
	pcmpeqb	%xmm8, %xmm5
	pxor	%xmm2, %xmm5
	pmovzxbd	%xmm5, %xmm2
	pand	%xmm7, %xmm2
	paddd	%xmm3, %xmm2
	addq	$8, %r9
	cmpq	%r9, %rdx
	jne	.LBBad14d42f_127
	paddd	%xmm1, %xmm2
	pshufd	$238, %xmm2, %xmm0
	paddd	%xmm2, %xmm0
	pshufd	$85, %xmm0, %xmm1
	paddd	%xmm0, %xmm1
	movd	%xmm1, %edi
	cmpl	%edx, %ecx
	je	.LBBad14d42f_131
.LBBad14d42f_129:
	addq	%r8, %rax
	.p2align	4
.LBBad14d42f_130:
	movzbl	(%rax,%rdx), %r8d
	movl	%r8d, %r9d
	andb	$15, %r9b
	xorl	%r10d, %r10d
	cmpb	$16, %r8b
	setb	%r10b
	cmpb	$1, %r9b
	adcl	%r10d, %edi
	incq	%rdx
	cmpq	%rdx, %rcx
	jne	.LBBad14d42f_130
.LBBad14d42f_131:
	addl	%esi, %edi
	movl	%edi, 4(%rbx)
	xorl	%eax, %eax
	xorl	%edx, %edx
.LBBad14d42f_154:
	addq	$376, %rsp
	popq	%rbx
	popq	%r12
	popq	%r13
	popq	%r14
	popq	%r15
	popq	%rbp
	retq
.LBBad14d42f_132:
	testq	%r9, %r9
	je	.LBBad14d42f_87
	andl	$24, %edi
	xorl	%r10d, %r10d
	jmp	.LBBad14d42f_135
	.p2align	4
.LBBad14d42f_134:
	incb	%r10b
	cmpb	%sil, %r10b
	je	.LBBad14d42f_87
.LBBad14d42f_135:
	xorl	%r11d, %r11d
	cmpl	$8, %r9d
	jb	.LBBad14d42f_138
	.p2align	4
.LBBad14d42f_136:
	movq	(%r8,%r11), %xmm0
	movdqa	.LCPIad14d42f_3(%rip), %xmm1
	movq	.LCPIad14d42f_4(%rip), %xmm2
	movdqa	%xmm0, %xmm3
	pmaxub	%xmm2, %xmm3
	pcmpeqb	%xmm0, %xmm3
	pandn	%xmm2, %xmm3
	paddb	%xmm0, %xmm3
	pand	%xmm1, %xmm0
	pcmpeqb	%xmm1, %xmm0
	pcmpeqd	%xmm1, %xmm1
	pxor	%xmm0, %xmm1
	paddb	%xmm1, %xmm3
	movq	%xmm3, (%r8,%r11)
	addq	$8, %r11
	cmpq	%r11, %rdi
	jne	.LBBad14d42f_136
	movq	%rdi, %r11
	cmpl	%edi, %r9d
	je	.LBBad14d42f_134
	.p2align	4
.LBBad14d42f_138:
	movzbl	(%r8,%r11), %r14d
	movl	%r14d, %r13d
	notb	%r13b
	andb	$15, %r13b
	cmpb	$-16, %r14b
	setae	%r12b
	shlb	$4, %r12b
	addb	%r14b, %r12b
	cmpb	$1, %r13b
	adcb	$-1, %r12b
	addb	$-16, %r12b
	movb	%r12b, (%r8,%r11)
	incq	%r11
	cmpq	%r11, %r9
	jne	.LBBad14d42f_138
	jmp	.LBBad14d42f_134
.LBBad14d42f_139:
	xorl	%edi, %edi
	.p2align	4
.LBBad14d42f_140:
	movq	%rdx, %r8
	movq	%r10, %r9
	.p2align	4
.LBBad14d42f_141:
	movdqu	(%r8), %xmm1
	movdqu	16(%r8), %xmm3
	movdqa	.LCPIad14d42f_0(%rip), %xmm0
	movdqa	.LCPIad14d42f_1(%rip), %xmm2
	movdqa	%xmm1, %xmm4
	pminub	%xmm2, %xmm4
	pminub	%xmm3, %xmm2
	pcmpeqb	%xmm3, %xmm2
	movdqa	.LCPIad14d42f_2(%rip), %xmm5
	pand	%xmm5, %xmm2
	paddb	%xmm3, %xmm2
	pand	%xmm0, %xmm3
	pcmpeqb	%xmm1, %xmm4
	pand	%xmm5, %xmm4
	paddb	%xmm1, %xmm4
	pand	%xmm0, %xmm1
	pcmpeqb	%xmm0, %xmm1
	pcmpeqd	%xmm5, %xmm5
	pxor	%xmm5, %xmm1
	pcmpeqb	%xmm0, %xmm3
	pxor	%xmm5, %xmm3
	paddb	%xmm1, %xmm4
	paddb	%xmm3, %xmm2
	movdqu	%xmm4, (%r8)
	movdqu	%xmm2, 16(%r8)
	addq	$32, %r8
	decq	%r9
	jne	.LBBad14d42f_141
	incb	%dil
	cmpb	%sil, %dil
	jne	.LBBad14d42f_140
	jmp	.LBBad14d42f_87
.LBBad14d42f_143:
	addq	$72, %r12
	decq	%rbx
	je	.LBBad14d42f_148
.LBBad14d42f_144:
	movq	-16(%r12), %r15
	movq	(%r12), %rbp
	cmpq	$0, -24(%r12)
	je	.LBBad14d42f_146
	movq	-40(%r12), %rdi
	callq	rattle_dealloc@PLT
	movl	%r13d, %edx
.LBBad14d42f_146:
	testq	%rbp, %rbp
	je	.LBBad14d42f_143
	movq	%r15, %rdi
	callq	rattle_dealloc@PLT
	movl	%r13d, %edx
	jmp	.LBBad14d42f_143
.LBBad14d42f_148:
	cmpq	$0, 32(%rsp)
	je	.LBBad14d42f_150
	movq	%r14, %rdi
	callq	rattle_dealloc@PLT
	movl	%r13d, %edx
.LBBad14d42f_150:
	cmpb	$1, 4(%rsp)
	jne	.LBBad14d42f_153
	cmpq	$0, 8(%rsp)
	je	.LBBad14d42f_153
	movq	16(%rsp), %rdi
	callq	rattle_dealloc@PLT
	movl	%r13d, %edx
	jmp	.LBBad14d42f_153
.LBBad14d42f_155:
	ud2
.Lfunc_endad14d42f:
	.size	hll_registers.nibble_registers.NibbleRegisters.rise.8a2f8b2564a2651f, .Lfunc_endad14d42f-hll_registers.nibble_registers.NibbleRegisters.rise.8a2f8b2564a2651f

	.section	.text.hll_registers.exception_map.put_exception.8a2f8b2564a2651f,"ax",@progbits
	.p2align	4
	.type	hll_registers.exception_map.put_exception.8a2f8b2564a2651f,@function
hll_registers.exception_map.put_exception.8a2f8b2564a2651f:
	pushq	%rbp
	pushq	%r15
	pushq	%r14
	pushq	%r13
	pushq	%r12
	pushq	%rbx
	subq	$136, %rsp
	movl	%ecx, %r13d
	movq	%rdi, %rbx
	xorps	%xmm0, %xmm0
	movaps	%xmm0, 112(%rsp)
	movl	$0, 4(%rsp)
	movl	$0, 7(%rsp)
	cmpb	$1, (%rdi)
	jne	.LBB299c4c54_35
	movq	8(%rbx), %rax
	leaq	8(%rax), %rdi
	movzbl	24(%rax), %r8d
	testb	%r8b, %r8b
	je	.LBB299c4c54_2
	movq	32(%rax), %rbx
	movq	40(%rax), %r14
	jmp	.LBB299c4c54_4
.LBB299c4c54_35:
	movl	$2, %r14d
	cmpb	$7, %sil
	jae	.LBB299c4c54_36
.LBB299c4c54_42:
	movl	%edx, 80(%rsp)
	movl	%esi, 96(%rsp)
	movl	$4, %r12d
	movl	%r14d, %ecx
	shlq	%cl, %r12
	movl	$4, %esi
	movq	%r12, %rdi
	callq	rattle_alloc@PLT
	movq	%rdx, %r15
	movb	$12, %dl
	testb	$1, %al
	je	.LBB299c4c54_58
	movl	%r13d, %ebp
	movl	$1, %r13d
	movl	%r14d, %ecx
	shlq	%cl, %r13
	leaq	-4(%r12), %rdx
	movl	$0, 12(%rsp)
	movq	%r15, %rdi
	xorl	%esi, %esi
	callq	memset@PLT
	movl	$0, -4(%r15,%r12)
	movl	$1, %eax
	movl	80(%rsp), %edx
	movl	96(%rsp), %esi
	jmp	.LBB299c4c54_44
.LBB299c4c54_36:
	cmpb	$10, %sil
	jae	.LBB299c4c54_38
	movl	%r13d, %ebp
	xorl	%eax, %eax
	movb	$1, %cl
	movl	%ecx, 12(%rsp)
	movl	$3, %r14d
	xorl	%r15d, %r15d
	xorl	%r13d, %r13d
.LBB299c4c54_44:
	movb	%sil, 16(%rsp)
	movl	$0, 17(%rsp)
	movl	$0, 20(%rsp)
	leaq	24(%rsp), %r12
	movq	%r14, 24(%rsp)
	movq	$0, 32(%rsp)
	movl	%eax, 40(%rsp)
	movl	$0, 44(%rsp)
	movq	%r15, 48(%rsp)
	movq	%r13, 56(%rsp)
	movq	%r13, 64(%rsp)
	movq	$0, 72(%rsp)
	movzbl	%bpl, %esi
	shll	$26, %esi
	andl	$67108863, %edx
	orl	%edx, %esi
	movl	$3, %eax
	movl	%r14d, %ecx
	shlq	%cl, %rax
	cmpq	$4, %rax
	jae	.LBB299c4c54_45
	movq	%r12, %rdi
	callq	hll_coupons.aux_map.put_growing.8a2f8b2564a2651f
	testb	%al, %al
	je	.LBB299c4c54_61
	cmpb	$0, 40(%rsp)
	je	.LBB299c4c54_58
	cmpq	$0, 64(%rsp)
	je	.LBB299c4c54_58
	movq	48(%rsp), %rdi
	movl	%edx, %ebx
	callq	rattle_dealloc@PLT
	movl	%ebx, %edx
	jmp	.LBB299c4c54_58
.LBB299c4c54_2:
	leaq	28(%rax), %rbx
	movl	$8, %r14d
.LBB299c4c54_4:
	movq	(%rdi), %rcx
	movl	%edx, %r9d
	andl	$67108863, %r9d
	movl	%r9d, %r10d
	shrl	%cl, %r10d
	movq	$-1, %r11
	shlq	%cl, %r11
	orl	$1, %r10d
	notq	%r11
	testq	%r14, %r14
	je	.LBB299c4c54_9
	movl	%edx, %esi
	movq	%rsi, %r15
	.p2align	4
.LBB299c4c54_6:
	andq	%r11, %r15
	movl	(%rbx,%r15,4), %ebp
	testl	%ebp, %ebp
	je	.LBB299c4c54_12
	movl	%ebp, %r12d
	andl	$67108863, %r12d
	cmpl	%edx, %r12d
	je	.LBB299c4c54_12
	addq	%r10, %r15
	decq	%r14
	jne	.LBB299c4c54_6
	jmp	.LBB299c4c54_9
.LBB299c4c54_12:
	testl	%ebp, %ebp
	je	.LBB299c4c54_9
	testb	%r8b, %r8b
	je	.LBB299c4c54_14
	movq	40(%rax), %rcx
	testq	%rcx, %rcx
	je	.LBB299c4c54_20
	movq	32(%rax), %rdi
	jmp	.LBB299c4c54_17
.LBB299c4c54_9:
	movzbl	%r13b, %esi
	shll	$26, %esi
	orl	%r9d, %esi
	movq	16(%rax), %rdx
	leaq	4(,%rdx,4), %rdx
	movl	$3, %ebx
	shlq	%cl, %rbx
	cmpq	%rbx, %rdx
	jbe	.LBB299c4c54_10
	callq	hll_coupons.aux_map.put_growing.8a2f8b2564a2651f
	xorl	%ecx, %ecx
	testb	%al, %al
	setne	%al
	movzbl	%dl, %edx
	cmovel	%ecx, %edx
	jmp	.LBB299c4c54_71
.LBB299c4c54_10:
	testb	%r8b, %r8b
	je	.LBB299c4c54_11
	movq	40(%rax), %rcx
	testq	%rcx, %rcx
	je	.LBB299c4c54_20
	movq	32(%rax), %rdx
	jmp	.LBB299c4c54_26
.LBB299c4c54_45:
	movl	12(%rsp), %r10d
	testb	%r10b, %r10b
	je	.LBB299c4c54_47
	leaq	44(%rsp), %rax
	movl	$8, %r13d
	jmp	.LBB299c4c54_48
.LBB299c4c54_38:
	movl	$4, %r14d
	cmpb	$12, %sil
	jb	.LBB299c4c54_42
	movl	$5, %r14d
	cmpb	$14, %sil
	jb	.LBB299c4c54_42
	movl	%edx, %eax
	movb	$12, %dl
	cmpb	$68, %sil
	ja	.LBB299c4c54_58
	movzbl	%sil, %r14d
	addq	$-8, %r14
	movl	%eax, %edx
	jmp	.LBB299c4c54_42
.LBB299c4c54_58:
	movb	$1, %al
	jmp	.LBB299c4c54_71
.LBB299c4c54_47:
	movq	%r15, %rax
	testq	%r13, %r13
	je	.LBB299c4c54_20
.LBB299c4c54_48:
	movl	%edx, %edi
	movl	%r14d, %ecx
	shrl	%cl, %edi
	movq	$-1, %r8
	shlq	%cl, %r8
	orl	$1, %edi
	notq	%r8
	movl	%edx, %ecx
	.p2align	4
.LBB299c4c54_49:
	andq	%r8, %rcx
	movl	(%rax,%rcx,4), %r9d
	testl	%r9d, %r9d
	je	.LBB299c4c54_52
	andl	$67108863, %r9d
	cmpl	%edx, %r9d
	je	.LBB299c4c54_52
	addq	%rdi, %rcx
	decq	%r13
	jne	.LBB299c4c54_49
	jmp	.LBB299c4c54_20
.LBB299c4c54_52:
	testb	%r10b, %r10b
	je	.LBB299c4c54_59
	movl	%esi, 44(%rsp,%rcx,4)
	movq	32(%rsp), %rax
	incq	%rax
	jmp	.LBB299c4c54_60
.LBB299c4c54_59:
	movl	%esi, (%r15,%rcx,4)
	movl	$1, %eax
.LBB299c4c54_60:
	movq	%rax, 32(%rsp)
.LBB299c4c54_61:
	movq	16(%rsp), %r15
	movups	(%r12), %xmm0
	movaps	%xmm0, 112(%rsp)
	movzbl	40(%rsp), %ebp
	movl	44(%rsp), %eax
	movl	%eax, 7(%rsp)
	movl	41(%rsp), %eax
	movl	%eax, 4(%rsp)
	movq	48(%rsp), %r14
	movq	64(%rsp), %r12
	movups	56(%rsp), %xmm0
	movaps	%xmm0, 96(%rsp)
	movsd	72(%rsp), %xmm0
	movaps	%xmm0, 80(%rsp)
	movl	$64, %edi
	movl	$8, %esi
	callq	rattle_alloc@PLT
	testb	$1, %al
	je	.LBB299c4c54_68
	movq	%r15, (%rdx)
	movaps	112(%rsp), %xmm0
	movups	%xmm0, 8(%rdx)
	movb	%bpl, 24(%rdx)
	movl	4(%rsp), %eax
	movl	7(%rsp), %ecx
	movl	%eax, 25(%rdx)
	movl	%ecx, 28(%rdx)
	movq	%r14, 32(%rdx)
	movaps	96(%rsp), %xmm0
	movups	%xmm0, 40(%rdx)
	movaps	80(%rsp), %xmm0
	movlps	%xmm0, 56(%rdx)
	movzbl	(%rbx), %eax
	movq	8(%rbx), %rdi
	movq	$1, (%rbx)
	movq	%rdx, 8(%rbx)
	cmpb	$1, %al
	jne	.LBB299c4c54_66
	movq	32(%rdi), %rbx
	movq	48(%rdi), %r14
	movzbl	24(%rdi), %ebp
	callq	rattle_dealloc@PLT
	xorl	%edx, %edx
	testb	%bpl, %bpl
	je	.LBB299c4c54_67
	movl	$0, %eax
	testq	%r14, %r14
	je	.LBB299c4c54_71
	movq	%rbx, %rdi
	callq	rattle_dealloc@PLT
	jmp	.LBB299c4c54_66
.LBB299c4c54_68:
	movb	$1, %al
	movb	$12, %dl
	testb	%bpl, %bpl
	je	.LBB299c4c54_71
	testq	%r12, %r12
	je	.LBB299c4c54_71
	movq	%r14, %rdi
	callq	rattle_dealloc@PLT
	movb	$1, %al
	movb	$12, %dl
	jmp	.LBB299c4c54_71
.LBB299c4c54_11:
	leaq	28(%rax), %rdx
	movl	$8, %ecx
.LBB299c4c54_26:
	movl	%r9d, %edi
	.p2align	4
.LBB299c4c54_27:
	andq	%r11, %rdi
	movl	(%rdx,%rdi,4), %ebx
	testl	%ebx, %ebx
	je	.LBB299c4c54_30
	andl	$67108863, %ebx
	cmpl	%r9d, %ebx
	je	.LBB299c4c54_30
	addq	%r10, %rdi
	decq	%rcx
	jne	.LBB299c4c54_27
	jmp	.LBB299c4c54_20
.LBB299c4c54_30:
	testb	%r8b, %r8b
	je	.LBB299c4c54_31
	movq	32(%rax), %rcx
	movl	%esi, (%rcx,%rdi,4)
	incq	16(%rax)
	jmp	.LBB299c4c54_66
.LBB299c4c54_31:
	movl	%esi, 28(%rax,%rdi,4)
	incq	16(%rax)
	jmp	.LBB299c4c54_66
.LBB299c4c54_14:
	leaq	28(%rax), %rdi
	movl	$8, %ecx
	.p2align	4
.LBB299c4c54_17:
	andq	%r11, %rsi
	movl	(%rdi,%rsi,4), %ebx
	testl	%ebx, %ebx
	je	.LBB299c4c54_21
	andl	$67108863, %ebx
	cmpl	%edx, %ebx
	je	.LBB299c4c54_21
	addq	%r10, %rsi
	decq	%rcx
	jne	.LBB299c4c54_17
.LBB299c4c54_20:
	ud2
.LBB299c4c54_21:
	movzbl	%r13b, %ecx
	shll	$26, %ecx
	orl	%r9d, %ecx
	testb	%r8b, %r8b
	je	.LBB299c4c54_22
	movq	32(%rax), %rax
	movl	%ecx, (%rax,%rsi,4)
	jmp	.LBB299c4c54_66
.LBB299c4c54_22:
	movl	%ecx, 28(%rax,%rsi,4)
.LBB299c4c54_66:
	xorl	%edx, %edx
.LBB299c4c54_67:
	xorl	%eax, %eax
.LBB299c4c54_71:
	addq	$136, %rsp
	popq	%rbx
	popq	%r12
	popq	%r13
	popq	%r14
	popq	%r15
	popq	%rbp
	retq
.Lfunc_end299c4c54:
	.size	hll_registers.exception_map.put_exception.8a2f8b2564a2651f, .Lfunc_end299c4c54-hll_registers.exception_map.put_exception.8a2f8b2564a2651f

	.section	.text.hll_registers.nibble_registers.NibbleRegisters.put_high.8a2f8b2564a2651f,"ax",@progbits
	.p2align	4
	.type	hll_registers.nibble_registers.NibbleRegisters.put_high.8a2f8b2564a2651f,@function
hll_registers.nibble_registers.NibbleRegisters.put_high.8a2f8b2564a2651f:
	pushq	%rbp
	pushq	%r14
	pushq	%rbx
	movl	%ecx, %ebx
	movl	%edx, %ecx
	movl	%esi, %ebp
	movq	%rdi, %r14
	addq	$32, %rdi
	movzbl	(%r14), %esi
	movl	%ebp, %edx
	callq	hll_registers.exception_map.put_exception.8a2f8b2564a2651f
	testb	%al, %al
	je	.LBB368f3357_1
	popq	%rbx
	popq	%r14
	popq	%rbp
	retq
.LBB368f3357_1:
	movl	%ebp, %ecx
	shrl	%ecx
	testb	$1, %bpl
	movl	$15, %edx
	movl	$240, %esi
	cmovel	%edx, %esi
	movq	8(%r14), %rdx
	orb	%sil, (%rdx,%rcx)
	movl	%ebx, 4(%r14)
	xorl	%edx, %edx
	popq	%rbx
	popq	%r14
	popq	%rbp
	retq
.Lfunc_end368f3357:
	.size	hll_registers.nibble_registers.NibbleRegisters.put_high.8a2f8b2564a2651f, .Lfunc_end368f3357-hll_registers.nibble_registers.NibbleRegisters.put_high.8a2f8b2564a2651f

	.section	.text.hll_arrays.array6.Array6.update.309f015d8caa795c,"ax",@progbits
	.p2align	4
	.type	hll_arrays.array6.Array6.update.309f015d8caa795c,@function
hll_arrays.array6.Array6.update.309f015d8caa795c:
	pushq	%rbx
	movzbl	(%rdi), %ecx
	movq	$-1, %rdx
	shlq	%cl, %rdx
	notl	%edx
	andl	%esi, %edx
	movl	%edx, %ecx
	andl	$67108860, %ecx
	movq	16(%rdi), %rax
	shrl	$2, %ecx
	leaq	(%rcx,%rcx,2), %rcx
	movzbl	(%rax,%rcx), %r8d
	movzbl	1(%rax,%rcx), %r9d
	movzbl	2(%rax,%rcx), %r10d
	movl	%r10d, %r11d
	shll	$22, %r11d
	andl	$1056964608, %r11d
	shll	$20, %r10d
	movl	%r9d, %ebx
	shll	$12, %ebx
	orl	%r10d, %ebx
	andl	$4128768, %ebx
	orl	%r11d, %ebx
	shll	$10, %r9d
	leal	(%r9,%r8,4), %r9d
	andl	$63, %r8d
	andl	$16128, %r9d
	orl	%ebx, %r9d
	orl	%r8d, %r9d
	movl	%r9d, -4(%rsp)
	andl	$3, %edx
	movzbl	-4(%rsp,%rdx), %r8d
	shrl	$26, %esi
	cmpb	%sil, %r8b
	jae	.LBB6c86a0e0_2
	movzbl	4(%rdi), %r9d
	cmpl	$1, %r9d
	sete	%r10b
	testb	%r8b, %r8b
	sete	%r8b
	andb	%r10b, %r8b
	movzbl	%r8b, %r8d
	movl	%r9d, 4(%rdi)
	subl	%r8d, 8(%rdi)
	movzbl	(%rax,%rcx), %r8d
	movzbl	1(%rax,%rcx), %r9d
	movzbl	2(%rax,%rcx), %r10d
	movl	%r10d, %r11d
	shll	$22, %r11d
	andl	$1056964608, %r11d
	shll	$20, %r10d
	movl	%r9d, %ebx
	shll	$12, %ebx
	orl	%r10d, %ebx
	andl	$4128768, %ebx
	orl	%r11d, %ebx
	shll	$10, %r9d
	leal	(%r9,%r8,4), %r9d
	andl	$63, %r8d
	andl	$16128, %r9d
	orl	%ebx, %r9d
	orl	%r8d, %r9d
	movl	%r9d, -8(%rsp)
	movb	%sil, -8(%rsp,%rdx)
	movl	-8(%rsp), %esi
	movzbl	%sil, %edx
	movl	%esi, %r8d
	shrl	$2, %r8d
	andl	$16320, %r8d
	addl	%edx, %r8d
	movl	%esi, %edx
	shrl	$4, %edx
	andl	$1044480, %edx
	addl	%r8d, %edx
	shrl	$6, %esi
	andl	$16515072, %esi
	addl	%edx, %esi
	shrl	$16, %esi
	movb	%r8b, (%rax,%rcx)
	movb	%dh, 1(%rax,%rcx)
	movb	%sil, 2(%rax,%rcx)
	xorps	%xmm0, %xmm0
	movups	%xmm0, 40(%rdi)
	movq	$0, 56(%rdi)
	movb	$1, 64(%rdi)
	movl	$0, 65(%rdi)
	movl	$0, 68(%rdi)
.LBB6c86a0e0_2:
	popq	%rbx
	retq
.Lfunc_end6c86a0e0:
	.size	hll_arrays.array6.Array6.update.309f015d8caa795c, .Lfunc_end6c86a0e0-hll_arrays.array6.Array6.update.309f015d8caa795c

	.section	.text.hll_sketch.sketch.HllSketch.update_table.8a2f8b2564a2651f,"ax",@progbits
	.p2align	4
	.type	hll_sketch.sketch.HllSketch.update_table.8a2f8b2564a2651f,@function
hll_sketch.sketch.HllSketch.update_table.8a2f8b2564a2651f:
	pushq	%rbp
	pushq	%r15
	pushq	%r14
	pushq	%rbx
	subq	$264, %rsp
	movl	%esi, %ebp
	movq	%rdi, %rbx
	movzbl	8(%rdi), %r14d
	testl	%r14d, %r14d
	je	.LBB612d2cd0_5
	cmpl	$1, %r14d
	jne	.LBB612d2cd0_21
	movq	16(%rbx), %rcx
	movl	$3, %edx
	shlq	%cl, %rdx
	movq	24(%rbx), %rax
	shrq	$2, %rdx
	cmpb	$3, %cl
	movl	$7, %esi
	cmovneq	%rdx, %rsi
	movzbl	32(%rbx), %edx
	testb	%dl, %dl
	je	.LBB612d2cd0_9
	movq	48(%rbx), %r8
	movl	%ebp, %edi
	andl	$67108863, %edi
	shrl	%cl, %edi
	testq	%r8, %r8
	je	.LBB612d2cd0_22
	movq	40(%rbx), %r9
	jmp	.LBB612d2cd0_10
.LBB612d2cd0_5:
	leaq	16(%rbx), %rdi
	movzbl	16(%rbx), %ecx
	movl	$3, %eax
	shlq	%cl, %rax
	shrq	$2, %rax
	cmpb	$3, %cl
	movl	$7, %r15d
	cmovneq	%rax, %r15
	movl	%ebp, %esi
	callq	hll_coupons.list.List.contains.309f015d8caa795c
	movl	%eax, %edx
	xorb	$1, %dl
	movq	24(%rbx), %rcx
	movzbl	%dl, %edx
	addq	%rcx, %rdx
	xorl	%edi, %edi
	cmpq	%rdx, %r15
	adcb	$1, %dil
	testb	%al, %al
	jne	.LBB612d2cd0_18
	cmpq	%rdx, %r15
	jb	.LBB612d2cd0_18
	cmpb	$0, 32(%rbx)
	je	.LBB612d2cd0_8
.LBB612d2cd0_17:
	movq	40(%rbx), %rax
	movl	%ebp, (%rax,%rcx,4)
	incq	24(%rbx)
	jmp	.LBB612d2cd0_25
.LBB612d2cd0_9:
	leaq	36(%rbx), %r9
	movl	%ebp, %edi
	andl	$67108863, %edi
	shrl	%cl, %edi
	movl	$8, %r8d
.LBB612d2cd0_10:
	movq	$-1, %r10
	shlq	%cl, %r10
	orl	$1, %edi
	notq	%r10
	movl	%ebp, %ecx
	.p2align	4
.LBB612d2cd0_11:
	andq	%r10, %rcx
	movl	(%r9,%rcx,4), %r11d
	testl	%r11d, %r11d
	je	.LBB612d2cd0_14
	cmpl	%ebp, %r11d
	je	.LBB612d2cd0_14
	addq	%rdi, %rcx
	decq	%r8
	jne	.LBB612d2cd0_11
	jmp	.LBB612d2cd0_19
.LBB612d2cd0_14:
	xorl	%edi, %edi
	testl	%r11d, %r11d
	sete	%dil
	addq	%rdi, %rax
	xorl	%edi, %edi
	cmpq	%rax, %rsi
	adcb	$1, %dil
	testl	%r11d, %r11d
	jne	.LBB612d2cd0_18
	cmpq	%rax, %rsi
	jb	.LBB612d2cd0_18
	testb	%dl, %dl
	jne	.LBB612d2cd0_17
.LBB612d2cd0_8:
	movl	%ebp, 36(%rbx,%rcx,4)
	incq	24(%rbx)
	jmp	.LBB612d2cd0_25
.LBB612d2cd0_18:
	cmpb	$2, %dil
	jne	.LBB612d2cd0_25
.LBB612d2cd0_19:
	xorps	%xmm0, %xmm0
	movaps	%xmm0, 80(%rsp)
	movaps	%xmm0, 64(%rsp)
	movaps	%xmm0, 48(%rsp)
	movaps	%xmm0, 32(%rsp)
	movaps	%xmm0, 16(%rsp)
	movaps	%xmm0, (%rsp)
	testl	%r14d, %r14d
	je	.LBB612d2cd0_23
	cmpl	$1, %r14d
	je	.LBB612d2cd0_23
.LBB612d2cd0_21:
	ud2
.LBB612d2cd0_22:
	xorps	%xmm0, %xmm0
	movaps	%xmm0, 80(%rsp)
	movaps	%xmm0, 64(%rsp)
	movaps	%xmm0, 48(%rsp)
	movaps	%xmm0, 32(%rsp)
	movaps	%xmm0, 16(%rsp)
	movaps	%xmm0, (%rsp)
.LBB612d2cd0_23:
	leaq	16(%rbx), %rcx
	movzbl	72(%rbx), %edx
	movzbl	(%rbx), %esi
	movq	%rsp, %rdi
	movl	%ebp, %r8d
	callq	hll_sketch.promotion.promoted_table.8a2f8b2564a2651f
	movzbl	1(%rsp), %edx
	movzbl	8(%rsp), %ecx
	movaps	16(%rsp), %xmm0
	movaps	%xmm0, 96(%rsp)
	movaps	32(%rsp), %xmm0
	movaps	%xmm0, 112(%rsp)
	movaps	48(%rsp), %xmm0
	movaps	%xmm0, 128(%rsp)
	movaps	64(%rsp), %xmm0
	movaps	%xmm0, 144(%rsp)
	movaps	80(%rsp), %xmm0
	movaps	%xmm0, 160(%rsp)
	cmpb	$0, (%rsp)
	movb	$1, %al
	jne	.LBB612d2cd0_26
	movzbl	8(%rbx), %eax
	movq	%rax, 176(%rsp)
	movups	16(%rbx), %xmm0
	movups	32(%rbx), %xmm1
	movups	48(%rbx), %xmm2
	movups	64(%rbx), %xmm3
	movups	%xmm1, 200(%rsp)
	movups	%xmm2, 216(%rsp)
	movups	%xmm3, 232(%rsp)
	movups	80(%rbx), %xmm1
	movups	%xmm1, 248(%rsp)
	movups	%xmm0, 184(%rsp)
	movq	%rcx, 8(%rbx)
	movaps	160(%rsp), %xmm0
	movups	%xmm0, 80(%rbx)
	movaps	96(%rsp), %xmm0
	movaps	112(%rsp), %xmm1
	movaps	128(%rsp), %xmm2
	movaps	144(%rsp), %xmm3
	movups	%xmm3, 64(%rbx)
	movups	%xmm2, 48(%rbx)
	movups	%xmm1, 32(%rbx)
	movups	%xmm0, 16(%rbx)
	leaq	176(%rsp), %rdi
	callq	hll_sketch.mode.Mode.drop.309f015d8caa795c
.LBB612d2cd0_25:
	xorl	%edx, %edx
	xorl	%eax, %eax
.LBB612d2cd0_26:
	addq	$264, %rsp
	popq	%rbx
	popq	%r14
	popq	%r15
	popq	%rbp
	retq
.Lfunc_end612d2cd0:
	.size	hll_sketch.sketch.HllSketch.update_table.8a2f8b2564a2651f, .Lfunc_end612d2cd0-hll_sketch.sketch.HllSketch.update_table.8a2f8b2564a2651f

	.section	.text.hll_sketch.promotion.promoted_table.8a2f8b2564a2651f,"ax",@progbits
	.p2align	4
	.type	hll_sketch.promotion.promoted_table.8a2f8b2564a2651f,@function
hll_sketch.promotion.promoted_table.8a2f8b2564a2651f:
	pushq	%rbp
	pushq	%r15
	pushq	%r14
	pushq	%r12
	pushq	%rbx
	subq	$256, %rsp
	movl	%r8d, %ebp
	movl	%esi, %eax
	xorps	%xmm0, %xmm0
	movaps	%xmm0, 80(%rsp)
	movaps	%xmm0, 64(%rsp)
	movaps	%xmm0, 48(%rsp)
	movaps	%xmm0, 32(%rsp)
	movaps	%xmm0, 16(%rsp)
	movaps	%xmm0, (%rsp)
	movq	(%rcx), %rsi
	leaq	1(%rsi), %r8
	cmpq	$3, %rsi
	movl	$5, %esi
	cmovneq	%r8, %rsi
	movq	%rdi, %rbx
	leaq	3(%rsi), %rdi
	movzbl	%al, %eax
	cmpq	%rax, %rdi
	jbe	.LBBcab24a57_2
	movzbl	%dl, %edx
	movq	%rsp, %rdi
	movl	%eax, %esi
	movl	$1, %r8d
	movl	%ebp, %r9d
	callq	hll_sketch.promotion.mode_of_table.8a2f8b2564a2651f
	movzbl	(%rsp), %edx
	movzbl	1(%rsp), %ecx
	movzbl	8(%rsp), %eax
	jmp	.LBBcab24a57_19
.LBBcab24a57_2:
	movl	%edx, %r14d
	movq	$0, 152(%rsp)
	movaps	%xmm0, 160(%rsp)
	movaps	%xmm0, 176(%rsp)
	movaps	%xmm0, 192(%rsp)
	movaps	%xmm0, 208(%rsp)
	leaq	160(%rsp), %rdi
	movq	%rcx, %rdx
	callq	hll_coupons.hash_set.HashSet.from_container.8a2f8b2564a2651f
	cmpb	$0, 160(%rsp)
	je	.LBBcab24a57_3
	movzbl	161(%rsp), %eax
	movb	$1, (%rbx)
	movb	%al, 1(%rbx)
	xorps	%xmm0, %xmm0
	movups	%xmm0, 8(%rbx)
	movups	%xmm0, 24(%rbx)
	movups	%xmm0, 40(%rbx)
	movups	%xmm0, 56(%rbx)
	movups	%xmm0, 72(%rbx)
	movq	$0, 88(%rbx)
	jmp	.LBBcab24a57_21
.LBBcab24a57_3:
	movq	168(%rsp), %rcx
	movq	176(%rsp), %rax
	movzbl	184(%rsp), %edx
	movl	$1, %r8d
	shlq	%cl, %r8
	movq	%rcx, 104(%rsp)
	movq	%rax, 112(%rsp)
	movl	%edx, 120(%rsp)
	leaq	124(%rsp), %rsi
	movups	188(%rsp), %xmm0
	movups	204(%rsp), %xmm1
	movups	%xmm0, 124(%rsp)
	movups	%xmm1, 140(%rsp)
	testl	%edx, %edx
	je	.LBBcab24a57_4
	movq	136(%rsp), %r10
	movl	%ebp, %r9d
	andl	$67108863, %r9d
	shrl	%cl, %r9d
	testq	%r10, %r10
	je	.LBBcab24a57_15
	movl	%r14d, %edi
	movq	128(%rsp), %r15
	jmp	.LBBcab24a57_7
.LBBcab24a57_4:
	movl	%ebp, %r9d
	andl	$67108863, %r9d
	shrl	%cl, %r9d
	movl	$8, %r10d
	movq	%rsi, %r15
	movl	%r14d, %edi
.LBBcab24a57_7:
	movq	$-1, %r14
	shlq	%cl, %r14
	orl	$1, %r9d
	notq	%r14
	movl	%ebp, %r11d
	.p2align	4
.LBBcab24a57_8:
	andq	%r14, %r11
	movl	(%r15,%r11,4), %r12d
	testl	%r12d, %r12d
	je	.LBBcab24a57_11
	cmpl	%ebp, %r12d
	je	.LBBcab24a57_11
	addq	%r9, %r11
	decq	%r10
	jne	.LBBcab24a57_8
.LBBcab24a57_15:
	ud2
.LBBcab24a57_11:
	xorl	%r9d, %r9d
	testl	%r12d, %r12d
	setne	%r10b
	sete	%r9b
	addq	%rax, %r9
	cmpq	%r9, %r8
	setb	%r14b
	orb	%r10b, %r14b
	jne	.LBBcab24a57_14
	testl	%edx, %edx
	je	.LBBcab24a57_13
	movq	128(%rsp), %r8
	movl	%ebp, (%r8,%r11,4)
	jmp	.LBBcab24a57_17
.LBBcab24a57_14:
	cmpq	%r9, %r8
	jae	.LBBcab24a57_18
	jmp	.LBBcab24a57_15
.LBBcab24a57_13:
	movl	%ebp, 124(%rsp,%r11,4)
	movq	104(%rsp), %rcx
	movq	112(%rsp), %rax
	movzbl	120(%rsp), %edx
.LBBcab24a57_17:
	incq	%rax
.LBBcab24a57_18:
	movups	(%rsi), %xmm0
	movups	16(%rsi), %xmm1
	movaps	%xmm1, 240(%rsp)
	movaps	%xmm0, 224(%rsp)
	movq	%rcx, 16(%rsp)
	movq	%rax, 24(%rsp)
	movl	%edx, 32(%rsp)
	movups	%xmm0, 36(%rsp)
	movups	%xmm1, 52(%rsp)
	movl	$0, 68(%rsp)
	movb	%dil, 72(%rsp)
	xorps	%xmm0, %xmm0
	movups	%xmm0, 73(%rsp)
	movq	$0, 88(%rsp)
	movl	$1, %eax
	xorl	%ecx, %ecx
	xorl	%edx, %edx
.LBBcab24a57_19:
	movb	%dl, (%rbx)
	movb	%cl, 1(%rbx)
	movq	%rax, 8(%rbx)
	movq	16(%rsp), %rax
	movq	24(%rsp), %rcx
	movaps	32(%rsp), %xmm0
	movaps	48(%rsp), %xmm1
	movq	64(%rsp), %rdx
	movzbl	72(%rsp), %esi
	movl	73(%rsp), %edi
	movzwl	77(%rsp), %r8d
	movzbl	79(%rsp), %r9d
	movq	%rax, 16(%rbx)
	movq	%rcx, 24(%rbx)
	movups	%xmm0, 32(%rbx)
	movups	%xmm1, 48(%rbx)
	movq	%rdx, 64(%rbx)
	movb	%sil, 72(%rbx)
	movl	%edi, 73(%rbx)
	movw	%r8w, 77(%rbx)
	movb	%r9b, 79(%rbx)
	movaps	80(%rsp), %xmm0
	movups	%xmm0, 80(%rbx)
.LBBcab24a57_21:
	addq	$256, %rsp
	popq	%rbx
	popq	%r12
	popq	%r14
	popq	%r15
	popq	%rbp
	retq
.Lfunc_endcab24a57:
	.size	hll_sketch.promotion.promoted_table.8a2f8b2564a2651f, .Lfunc_endcab24a57-hll_sketch.promotion.promoted_table.8a2f8b2564a2651f

	.section	.text.hll_sketch.promotion.mode_of_table.8a2f8b2564a2651f,"ax",@progbits
	.p2align	4
	.type	hll_sketch.promotion.mode_of_table.8a2f8b2564a2651f,@function
hll_sketch.promotion.mode_of_table.8a2f8b2564a2651f:
	pushq	%rbp
	pushq	%r15
	pushq	%r14
	pushq	%r13
	pushq	%r12
	pushq	%rbx
	subq	$760, %rsp
	movl	%r8d, %r15d
	movq	%rcx, %r14
	movq	%rdi, %rbx
	xorps	%xmm0, %xmm0
	movaps	%xmm0, 176(%rsp)
	movaps	%xmm0, 160(%rsp)
	movaps	%xmm0, 144(%rsp)
	movaps	%xmm0, 128(%rsp)
	movq	$0, 192(%rsp)
	movl	$0, 4(%rsp)
	movl	$0, 7(%rsp)
	movaps	%xmm0, 512(%rsp)
	movaps	%xmm0, 528(%rsp)
	movaps	%xmm0, 544(%rsp)
	movaps	%xmm0, 560(%rsp)
	movups	%xmm0, 574(%rsp)
	movl	$0, 12(%rsp)
	movl	$0, 15(%rsp)
	movaps	%xmm0, 592(%rsp)
	movaps	%xmm0, 608(%rsp)
	movaps	%xmm0, 624(%rsp)
	movaps	%xmm0, 640(%rsp)
	movups	%xmm0, 654(%rsp)
	movaps	%xmm0, 496(%rsp)
	movaps	%xmm0, 480(%rsp)
	movaps	%xmm0, 464(%rsp)
	movaps	%xmm0, 448(%rsp)
	movaps	%xmm0, 432(%rsp)
	cmpb	$2, %dl
	je	.LBB326ee0eb_31
	movzbl	%dl, %eax
	cmpl	$1, %eax
	jne	.LBB326ee0eb_2
	movl	%r9d, 28(%rsp)
	leal	-2(%rsi), %ecx
	movl	$1, %ebp
	shlq	%cl, %rbp
	cmpb	$61, %cl
	ja	.LBB326ee0eb_28
	movzbl	%cl, %r13d
	movl	$3, %r12d
	movl	%r13d, %ecx
	shlq	%cl, %r12
	movq	%rsi, 120(%rsp)
	movl	$1, %esi
	movq	%r12, %rdi
	callq	rattle_alloc@PLT
	movq	120(%rsp), %rcx
	testb	$1, %al
	je	.LBB326ee0eb_28
	testq	%r13, %r13
	je	.LBB326ee0eb_15
	addq	$-3, %r12
	movq	%rdx, %rdi
	xorl	%esi, %esi
	movq	%rdx, %r13
	movq	%r12, %rdx
	callq	memset@PLT
	movq	%r13, %rdx
	movq	120(%rsp), %rcx
	leaq	-1(%rbp), %rax
	jmp	.LBB326ee0eb_17
.LBB326ee0eb_31:
	movzbl	%sil, %esi
	movzbl	%r15b, %ecx
	leaq	432(%rsp), %rdi
	movq	%r14, %rdx
	movl	%r9d, %r8d
	callq	hll_sketch.promotion.registers_of_table.c04436f960e64b83
	cmpb	$0, 432(%rsp)
	je	.LBB326ee0eb_32
	movzbl	433(%rsp), %eax
	movb	$1, (%rbx)
	movb	%al, 1(%rbx)
	jmp	.LBB326ee0eb_29
.LBB326ee0eb_2:
	movaps	%xmm0, 208(%rsp)
	movaps	%xmm0, 224(%rsp)
	movaps	%xmm0, 240(%rsp)
	movaps	%xmm0, 256(%rsp)
	movups	%xmm0, 270(%rsp)
	movaps	%xmm0, 32(%rsp)
	movaps	%xmm0, 48(%rsp)
	movaps	%xmm0, 64(%rsp)
	movaps	%xmm0, 80(%rsp)
	movaps	%xmm0, 96(%rsp)
	movzbl	%sil, %esi
	movzbl	%r15b, %ecx
	leaq	32(%rsp), %rdi
	movq	%r14, %rdx
	movl	%r9d, %r8d
	callq	hll_sketch.promotion.registers_of_table.c04436f960e64b83
	cmpb	$0, 32(%rsp)
	je	.LBB326ee0eb_3
	movzbl	33(%rsp), %r13d
	jmp	.LBB326ee0eb_11
.LBB326ee0eb_28:
	movw	$3073, (%rbx)
	jmp	.LBB326ee0eb_29
.LBB326ee0eb_32:
	movq	504(%rsp), %rax
	movq	%rax, 192(%rsp)
	movups	440(%rsp), %xmm0
	movups	456(%rsp), %xmm1
	movups	472(%rsp), %xmm2
	movups	488(%rsp), %xmm3
	movaps	%xmm3, 176(%rsp)
	movaps	%xmm2, 160(%rsp)
	movaps	%xmm1, 144(%rsp)
	movaps	%xmm0, 128(%rsp)
	movl	$0, 4(%rsp)
	movl	$0, 7(%rsp)
	movl	$4, %eax
	jmp	.LBB326ee0eb_33
.LBB326ee0eb_3:
	movq	56(%rsp), %r14
	movq	64(%rsp), %rcx
	movq	72(%rsp), %r12
	movzbl	104(%rsp), %ebp
	movl	40(%rsp), %esi
	xorps	%xmm0, %xmm0
	movaps	%xmm0, 368(%rsp)
	movaps	%xmm0, 384(%rsp)
	movaps	%xmm0, 400(%rsp)
	movq	$0, 416(%rsp)
	leaq	368(%rsp), %rdi
	movq	%r14, %rdx
	callq	hll_registers.nibble_registers.NibbleRegisters.from_values.8a2f8b2564a2651f
	movzbl	368(%rsp), %r15d
	testb	%r15b, %r15b
	je	.LBB326ee0eb_4
	movzbl	369(%rsp), %r13d
	xorps	%xmm0, %xmm0
	movups	%xmm0, 214(%rsp)
	movups	%xmm0, 230(%rsp)
	movups	%xmm0, 246(%rsp)
	movups	%xmm0, 262(%rsp)
	movq	$0, 278(%rsp)
	movl	$0, 20(%rsp)
	movl	$0, 23(%rsp)
	xorl	%ebp, %ebp
	testq	%r12, %r12
	je	.LBB326ee0eb_8
.LBB326ee0eb_7:
	movq	%r14, %rdi
	callq	rattle_dealloc@PLT
.LBB326ee0eb_8:
	movq	278(%rsp), %rax
	movq	%rax, 582(%rsp)
	movups	214(%rsp), %xmm0
	movups	230(%rsp), %xmm1
	movups	246(%rsp), %xmm2
	movups	262(%rsp), %xmm3
	movups	%xmm3, 566(%rsp)
	movups	%xmm2, 550(%rsp)
	movups	%xmm1, 534(%rsp)
	movups	%xmm0, 518(%rsp)
	movl	20(%rsp), %eax
	movl	%eax, 12(%rsp)
	movl	23(%rsp), %eax
	movl	%eax, 15(%rsp)
	testb	%r15b, %r15b
	je	.LBB326ee0eb_9
.LBB326ee0eb_11:
	movb	$1, (%rbx)
	movb	%r13b, 1(%rbx)
.LBB326ee0eb_29:
	xorps	%xmm0, %xmm0
	movups	%xmm0, 8(%rbx)
	movups	%xmm0, 24(%rbx)
	movups	%xmm0, 40(%rbx)
	movups	%xmm0, 56(%rbx)
	movups	%xmm0, 72(%rbx)
	movq	$0, 88(%rbx)
	jmp	.LBB326ee0eb_30
.LBB326ee0eb_4:
	movups	376(%rsp), %xmm0
	movups	392(%rsp), %xmm1
	movups	408(%rsp), %xmm2
	movaps	%xmm2, 320(%rsp)
	movaps	%xmm1, 304(%rsp)
	movaps	%xmm0, 288(%rsp)
	xorps	%xmm3, %xmm3
	movaps	%xmm3, 336(%rsp)
	movups	%xmm0, 688(%rsp)
	movups	%xmm1, 704(%rsp)
	movups	%xmm2, 720(%rsp)
	movups	%xmm3, 736(%rsp)
	movq	$0, 752(%rsp)
	movaps	%xmm2, 320(%rsp)
	movaps	%xmm1, 304(%rsp)
	movaps	%xmm0, 288(%rsp)
	movq	96(%rsp), %rax
	movq	%rax, 352(%rsp)
	movaps	80(%rsp), %xmm0
	movaps	%xmm0, 336(%rsp)
	movl	105(%rsp), %eax
	movl	108(%rsp), %ecx
	movl	%ecx, 23(%rsp)
	movl	%eax, 20(%rsp)
	movq	352(%rsp), %rax
	movq	%rax, 278(%rsp)
	movaps	288(%rsp), %xmm0
	movaps	304(%rsp), %xmm1
	movaps	320(%rsp), %xmm2
	movaps	336(%rsp), %xmm3
	movups	%xmm3, 262(%rsp)
	movups	%xmm2, 246(%rsp)
	movups	%xmm1, 230(%rsp)
	movups	%xmm0, 214(%rsp)
	xorl	%r13d, %r13d
	testq	%r12, %r12
	jne	.LBB326ee0eb_7
	jmp	.LBB326ee0eb_8
.LBB326ee0eb_9:
	leaq	518(%rsp), %rax
	movq	64(%rax), %rcx
	movq	%rcx, 192(%rsp)
	movups	(%rax), %xmm0
	movups	16(%rax), %xmm1
	movups	32(%rax), %xmm2
	movups	48(%rax), %xmm3
	movaps	%xmm3, 176(%rsp)
	movaps	%xmm2, 160(%rsp)
	movaps	%xmm1, 144(%rsp)
	movaps	%xmm0, 128(%rsp)
	movl	12(%rsp), %eax
	movl	15(%rsp), %ecx
	movl	%eax, 4(%rsp)
	movl	%ecx, 7(%rsp)
	movl	$2, %eax
	jmp	.LBB326ee0eb_34
.LBB326ee0eb_15:
	xorl	%eax, %eax
.LBB326ee0eb_17:
	leaq	(%rax,%rax,2), %rsi
	movw	$0, (%rdx,%rsi)
	movb	$0, 2(%rdx,%rsi)
	incq	%rax
	movl	$1, %esi
	shlq	%cl, %rsi
	movb	%cl, 32(%rsp)
	movw	$0, 33(%rsp)
	movb	$0, 35(%rsp)
	movl	$1, 36(%rsp)
	movl	%esi, 40(%rsp)
	movl	$0, 44(%rsp)
	movq	%rdx, 48(%rsp)
	movq	%rax, 56(%rsp)
	movq	%rbp, 64(%rsp)
	xorps	%xmm0, %xmm0
	movups	%xmm0, 72(%rsp)
	movq	$0, 88(%rsp)
	movb	$1, 96(%rsp)
	movl	$0, 97(%rsp)
	movl	$0, 100(%rsp)
	cmpb	$0, 16(%r14)
	je	.LBB326ee0eb_18
	movq	32(%r14), %r12
	movq	24(%r14), %r14
	xorl	%r13d, %r13d
	cmpq	%r13, %r12
	jne	.LBB326ee0eb_22
	jmp	.LBB326ee0eb_25
.LBB326ee0eb_18:
	addq	$20, %r14
	movl	$8, %r12d
	xorl	%r13d, %r13d
	cmpq	%r13, %r12
	jne	.LBB326ee0eb_22
	jmp	.LBB326ee0eb_25
	.p2align	4
.LBB326ee0eb_23:
	incq	%r13
	cmpq	%r13, %r12
	je	.LBB326ee0eb_25
.LBB326ee0eb_22:
	movl	(%r14,%r13,4), %esi
	testl	%esi, %esi
	je	.LBB326ee0eb_23
	leaq	32(%rsp), %rdi
	callq	hll_arrays.array6.Array6.update.309f015d8caa795c
	incq	%r13
	cmpq	%r13, %r12
	jne	.LBB326ee0eb_22
.LBB326ee0eb_25:
	cmpb	$1, %r15b
	jne	.LBB326ee0eb_27
	leaq	32(%rsp), %rdi
	movl	28(%rsp), %esi
	callq	hll_arrays.array6.Array6.update.309f015d8caa795c
.LBB326ee0eb_27:
	movq	96(%rsp), %rax
	movq	%rax, 662(%rsp)
	movups	32(%rsp), %xmm0
	movups	48(%rsp), %xmm1
	movups	64(%rsp), %xmm2
	movups	80(%rsp), %xmm3
	movups	%xmm3, 646(%rsp)
	movups	%xmm2, 630(%rsp)
	movups	%xmm1, 614(%rsp)
	movups	%xmm0, 598(%rsp)
	movaps	%xmm0, 128(%rsp)
	movaps	%xmm1, 144(%rsp)
	movaps	%xmm2, 160(%rsp)
	movaps	%xmm3, 176(%rsp)
	movq	%rax, 192(%rsp)
	movl	$0, 4(%rsp)
	movl	$0, 7(%rsp)
	movl	$3, %eax
.LBB326ee0eb_33:
	xorl	%ebp, %ebp
.LBB326ee0eb_34:
	movw	$0, (%rbx)
	movq	%rax, 8(%rbx)
	movaps	128(%rsp), %xmm0
	movaps	144(%rsp), %xmm1
	movaps	160(%rsp), %xmm2
	movaps	176(%rsp), %xmm3
	movups	%xmm0, 16(%rbx)
	movups	%xmm1, 32(%rbx)
	movups	%xmm2, 48(%rbx)
	movups	%xmm3, 64(%rbx)
	movq	192(%rsp), %rax
	movq	%rax, 80(%rbx)
	movb	%bpl, 88(%rbx)
	movl	4(%rsp), %eax
	movl	7(%rsp), %ecx
	movl	%eax, 89(%rbx)
	movl	%ecx, 92(%rbx)
.LBB326ee0eb_30:
	addq	$760, %rsp
	popq	%rbx
	popq	%r12
	popq	%r13
	popq	%r14
	popq	%r15
	popq	%rbp
	retq
.Lfunc_end326ee0eb:
	.size	hll_sketch.promotion.mode_of_table.8a2f8b2564a2651f, .Lfunc_end326ee0eb-hll_sketch.promotion.mode_of_table.8a2f8b2564a2651f

	.section	.text.hll_sketch.promotion.registers_of_table.c04436f960e64b83,"ax",@progbits
	.p2align	4
	.type	hll_sketch.promotion.registers_of_table.c04436f960e64b83,@function
hll_sketch.promotion.registers_of_table.c04436f960e64b83:
	pushq	%rbp
	pushq	%r15
	pushq	%r14
	pushq	%r13
	pushq	%r12
	pushq	%rbx
	subq	$136, %rsp
	movl	%r8d, %ebp
	movl	%ecx, %r12d
	movq	%rdx, %r13
	movl	%esi, %r14d
	movq	%rdi, %rbx
	xorps	%xmm0, %xmm0
	movaps	%xmm0, 48(%rsp)
	movq	$0, 64(%rsp)
	movl	$0, 16(%rsp)
	movl	$0, 19(%rsp)
	movw	$0, 8(%rsp)
	movb	$0, 10(%rsp)
	movaps	%xmm0, 80(%rsp)
	movq	$0, 96(%rsp)
	movl	$0, 24(%rsp)
	movl	$0, 27(%rsp)
	movl	$1, %r15d
	movl	%r14d, %ecx
	shlq	%cl, %r15
	cmpb	$63, %r14b
	je	.LBB30c35d94_6
	movl	$1, %esi
	movq	%r15, %rdi
	callq	rattle_alloc@PLT
	xorps	%xmm0, %xmm0
	testb	$1, %al
	je	.LBB30c35d94_6
	testb	%r14b, %r14b
	je	.LBB30c35d94_3
	leaq	-1(%r15), %rax
	movq	%rdx, %rdi
	xorl	%esi, %esi
	movl	%r12d, 40(%rsp)
	movl	%ebp, %r12d
	movq	%rdx, %rbp
	movq	%rax, %rdx
	callq	memset@PLT
	leaq	-1(%r15), %rax
	movq	%rbp, %rdx
	movl	%r12d, %ebp
	movl	40(%rsp), %r12d
	jmp	.LBB30c35d94_5
.LBB30c35d94_6:
	movb	$0, 14(%rsp)
	movw	$0, 12(%rsp)
	movaps	%xmm0, 112(%rsp)
	movq	$0, 128(%rsp)
	movl	$0, 32(%rsp)
	movl	$0, 35(%rsp)
	xorl	%edi, %edi
	movb	$12, %cl
	xorl	%r14d, %r14d
	xorl	%eax, %eax
	xorl	%edx, %edx
	movq	$0, 40(%rsp)
	xorl	%r15d, %r15d
	xorl	%esi, %esi
	jmp	.LBB30c35d94_7
.LBB30c35d94_3:
	xorl	%eax, %eax
.LBB30c35d94_5:
	movb	$0, (%rdx,%rax)
	incq	%rax
	movq	%rax, 40(%rsp)
	movb	$0, 14(%rsp)
	movw	$0, 12(%rsp)
	xorps	%xmm0, %xmm0
	movaps	%xmm0, 112(%rsp)
	movq	$0, 128(%rsp)
	movl	$0, 32(%rsp)
	movl	$0, 35(%rsp)
	movb	$1, %dil
	xorl	%ecx, %ecx
	movl	%r15d, %eax
	movb	$1, %sil
.LBB30c35d94_7:
	movzbl	14(%rsp), %r8d
	movb	%r8b, 10(%rsp)
	movzwl	12(%rsp), %r8d
	movw	%r8w, 8(%rsp)
	movaps	112(%rsp), %xmm0
	movaps	%xmm0, 80(%rsp)
	movq	128(%rsp), %r8
	movq	%r8, 96(%rsp)
	movl	32(%rsp), %r8d
	movl	35(%rsp), %r9d
	movl	%r8d, 24(%rsp)
	movl	%r9d, 27(%rsp)
	testb	%dil, %dil
	je	.LBB30c35d94_16
	movq	96(%rsp), %rcx
	movq	%rcx, 64(%rsp)
	movaps	80(%rsp), %xmm0
	movaps	%xmm0, 48(%rsp)
	movl	24(%rsp), %ecx
	movl	27(%rsp), %edi
	movl	%edi, 19(%rsp)
	movl	%ecx, 16(%rsp)
	cmpb	$0, 16(%r13)
	je	.LBB30c35d94_9
	movq	32(%r13), %r8
	movq	24(%r13), %r13
	jmp	.LBB30c35d94_11
.LBB30c35d94_16:
	movb	$1, (%rbx)
	movb	%cl, 1(%rbx)
	xorps	%xmm0, %xmm0
	movups	%xmm0, 8(%rbx)
	movups	%xmm0, 24(%rbx)
	movups	%xmm0, 40(%rbx)
	movups	%xmm0, 56(%rbx)
	movq	$0, 72(%rbx)
	jmp	.LBB30c35d94_17
.LBB30c35d94_9:
	addq	$20, %r13
	movl	$8, %r8d
.LBB30c35d94_11:
	movq	$-1, %rdi
	movl	%r14d, %ecx
	shlq	%cl, %rdi
	notq	%rdi
	movl	%esi, %ecx
	.p2align	4
.LBB30c35d94_12:
	testq	%r8, %r8
	je	.LBB30c35d94_18
	decq	%r8
	movl	(%r13), %r9d
	addq	$4, %r13
	testq	%r9, %r9
	je	.LBB30c35d94_12
	movl	%edi, %r10d
	andl	%r9d, %r10d
	andl	$67108863, %r10d
	movzbl	(%rdx,%r10), %r11d
	shrl	$26, %r9d
	cmpb	%r9b, %r11b
	jae	.LBB30c35d94_12
	cmpb	$1, %r11b
	sbbl	$0, %eax
	movb	%r9b, (%rdx,%r10)
	xorps	%xmm0, %xmm0
	movaps	%xmm0, 48(%rsp)
	movq	$0, 64(%rsp)
	movl	$0, 16(%rsp)
	movl	$0, 19(%rsp)
	movb	$1, %cl
	jmp	.LBB30c35d94_12
.LBB30c35d94_18:
	cmpb	$1, %r12b
	jne	.LBB30c35d94_21
	andl	%ebp, %edi
	andl	$67108863, %edi
	movzbl	(%rdx,%rdi), %r8d
	shrl	$26, %ebp
	cmpb	%bpl, %r8b
	jae	.LBB30c35d94_21
	cmpb	$1, %r8b
	sbbl	$0, %eax
	movb	%bpl, (%rdx,%rdi)
	xorps	%xmm0, %xmm0
	movaps	%xmm0, 48(%rsp)
	movq	$0, 64(%rsp)
	movl	$0, 16(%rsp)
	movl	$0, 19(%rsp)
	movb	$1, %cl
.LBB30c35d94_21:
	movzbl	%sil, %esi
	movw	$0, (%rbx)
	movb	%r14b, 8(%rbx)
	movzwl	8(%rsp), %edi
	movw	%di, 9(%rbx)
	movzbl	10(%rsp), %edi
	movb	%dil, 11(%rbx)
	movl	%esi, 12(%rbx)
	movl	%eax, 16(%rbx)
	movl	$0, 20(%rbx)
	movq	%rdx, 24(%rbx)
	movq	40(%rsp), %rax
	movq	%rax, 32(%rbx)
	movq	%r15, 40(%rbx)
	movaps	48(%rsp), %xmm0
	movups	%xmm0, 48(%rbx)
	movq	64(%rsp), %rax
	movq	%rax, 64(%rbx)
	movb	%cl, 72(%rbx)
	movl	16(%rsp), %eax
	movl	19(%rsp), %ecx
	movl	%eax, 73(%rbx)
	movl	%ecx, 76(%rbx)
.LBB30c35d94_17:
	addq	$136, %rsp
	popq	%rbx
	popq	%r12
	popq	%r13
	popq	%r14
	popq	%r15
	popq	%rbp
	retq
.Lfunc_end30c35d94:
	.size	hll_sketch.promotion.registers_of_table.c04436f960e64b83, .Lfunc_end30c35d94-hll_sketch.promotion.registers_of_table.c04436f960e64b83

	.section	.text.hll_coupons.hash_set.HashSet.from_container.8a2f8b2564a2651f,"ax",@progbits
	.p2align	4
	.type	hll_coupons.hash_set.HashSet.from_container.8a2f8b2564a2651f,@function
hll_coupons.hash_set.HashSet.from_container.8a2f8b2564a2651f:
	pushq	%rbp
	pushq	%r15
	pushq	%r14
	pushq	%r13
	pushq	%r12
	pushq	%rbx
	subq	$72, %rsp
	movq	%rsi, %r14
	movq	%rdi, %rbx
	movq	$0, 64(%rsp)
	xorl	%eax, %eax
	movl	$0, %r12d
	movl	$0, %esi
	movl	$0, %r13d
	cmpq	$3, %r14
	jne	.LBB9f2ddefe_1
.LBB9f2ddefe_7:
	movq	%r14, 16(%rsp)
	movq	$0, 24(%rsp)
	movl	%eax, 32(%rsp)
	movl	$0, 36(%rsp)
	movq	%r12, 40(%rsp)
	movq	%rsi, 48(%rsp)
	movq	%r13, 56(%rsp)
	movl	$0, 64(%rsp)
	cmpb	$0, 16(%rdx)
	je	.LBB9f2ddefe_8
	movq	32(%rdx), %r8
	movq	24(%rdx), %rdx
	jmp	.LBB9f2ddefe_10
.LBB9f2ddefe_1:
	movl	$1, %r13d
	movl	%r14d, %ecx
	shlq	%cl, %r13
	cmpq	$60, %r14
	ja	.LBB9f2ddefe_50
	movq	%rdx, %rbp
	movl	$4, %r15d
	movl	%r14d, %ecx
	shlq	%cl, %r15
	movl	$4, %esi
	movq	%r15, %rdi
	callq	rattle_alloc@PLT
	testb	$1, %al
	je	.LBB9f2ddefe_50
	movq	%rdx, %r12
	testq	%r14, %r14
	je	.LBB9f2ddefe_4
	addq	$-4, %r15
	movq	%r12, %rdi
	xorl	%esi, %esi
	movq	%r15, %rdx
	callq	memset@PLT
	leaq	-1(%r13), %rsi
	jmp	.LBB9f2ddefe_6
.LBB9f2ddefe_50:
	movw	$3073, (%rbx)
.LBB9f2ddefe_51:
	xorps	%xmm0, %xmm0
	movups	%xmm0, 8(%rbx)
	movups	%xmm0, 24(%rbx)
	movups	%xmm0, 40(%rbx)
	movl	$0, 56(%rbx)
	jmp	.LBB9f2ddefe_52
.LBB9f2ddefe_8:
	addq	$20, %rdx
	movl	$8, %r8d
.LBB9f2ddefe_10:
	leaq	36(%rsp), %rbp
	movq	$-1, %rdi
	movl	%r14d, %ecx
	shlq	%cl, %rdi
	cmpq	$3, %r14
	jne	.LBB9f2ddefe_32
	xorl	%eax, %eax
	movq	%rdx, %rsi
	movq	%r8, 8(%rsp)
	movq	%r8, %rdi
	.p2align	4
.LBB9f2ddefe_12:
	testq	%rdi, %rdi
	je	.LBB9f2ddefe_13
	decq	%rdi
	movl	(%rsi), %r8d
	addq	$4, %rsi
	testq	%r8, %r8
	je	.LBB9f2ddefe_12
	movl	%r8d, %r9d
	andl	$67108863, %r9d
	movl	%r14d, %ecx
	shrl	%cl, %r9d
	movl	%r8d, %ecx
	andl	$7, %ecx
	leal	(,%rcx,4), %r10d
	movl	36(%rsp,%r10), %r11d
	testl	%r11d, %r11d
	je	.LBB9f2ddefe_31
	cmpl	%r8d, %r11d
	je	.LBB9f2ddefe_31
	orl	$1, %r9d
	addq	%r9, %rcx
	leal	(,%rcx,4), %r10d
	andl	$28, %r10d
	movl	36(%rsp,%r10), %r11d
	testl	%r11d, %r11d
	je	.LBB9f2ddefe_31
	cmpl	%r8d, %r11d
	je	.LBB9f2ddefe_31
	addq	%r9, %rcx
	leal	(,%rcx,4), %r10d
	andl	$28, %r10d
	movl	36(%rsp,%r10), %r11d
	testl	%r11d, %r11d
	je	.LBB9f2ddefe_31
	cmpl	%r8d, %r11d
	je	.LBB9f2ddefe_31
	addq	%r9, %rcx
	leal	(,%rcx,4), %r10d
	andl	$28, %r10d
	movl	36(%rsp,%r10), %r11d
	testl	%r11d, %r11d
	je	.LBB9f2ddefe_31
	cmpl	%r8d, %r11d
	je	.LBB9f2ddefe_31
	addq	%r9, %rcx
	leal	(,%rcx,4), %r10d
	andl	$28, %r10d
	movl	36(%rsp,%r10), %r11d
	testl	%r11d, %r11d
	je	.LBB9f2ddefe_31
	cmpl	%r8d, %r11d
	je	.LBB9f2ddefe_31
	addq	%r9, %rcx
	leal	(,%rcx,4), %r10d
	andl	$28, %r10d
	movl	36(%rsp,%r10), %r11d
	testl	%r11d, %r11d
	je	.LBB9f2ddefe_31
	cmpl	%r8d, %r11d
	je	.LBB9f2ddefe_31
	addq	%r9, %rcx
	leal	(,%rcx,4), %r10d
	andl	$28, %r10d
	movl	36(%rsp,%r10), %r11d
	testl	%r11d, %r11d
	je	.LBB9f2ddefe_31
	cmpl	%r8d, %r11d
	je	.LBB9f2ddefe_31
	addl	%r9d, %ecx
	shll	$2, %ecx
	movl	%ecx, %r10d
	andl	$28, %r10d
	movl	36(%rsp,%r10), %ecx
	testl	%ecx, %ecx
	je	.LBB9f2ddefe_31
	cmpl	%r8d, %ecx
	jne	.LBB9f2ddefe_41
.LBB9f2ddefe_31:
	movl	%r8d, 36(%rsp,%r10)
	incq	%rax
	movq	%rax, 24(%rsp)
	leaq	36(%rsp), %rbp
	jmp	.LBB9f2ddefe_12
.LBB9f2ddefe_32:
	cmpq	$64, %rsi
	movl	$64, %r13d
	cmovbq	%rsi, %r13
	notq	%rdi
	xorl	%eax, %eax
	movq	%rdx, %r9
	movq	%r8, %r10
	.p2align	4
.LBB9f2ddefe_33:
	testq	%r10, %r10
	je	.LBB9f2ddefe_34
	decq	%r10
	movl	(%r9), %r11d
	addq	$4, %r9
	testq	%r11, %r11
	je	.LBB9f2ddefe_33
	movq	%r8, 8(%rsp)
	movl	%r11d, %ebp
	andl	$67108863, %ebp
	movl	%r14d, %ecx
	shrl	%cl, %ebp
	testq	%rsi, %rsi
	je	.LBB9f2ddefe_41
	orl	$1, %ebp
	movl	%r11d, %ecx
	andl	%edi, %ecx
	movq	%r13, %r8
	.p2align	4
.LBB9f2ddefe_38:
	movl	(%r12,%rcx,4), %r15d
	testl	%r15d, %r15d
	je	.LBB9f2ddefe_57
	cmpl	%r11d, %r15d
	je	.LBB9f2ddefe_57
	addq	%rbp, %rcx
	andq	%rdi, %rcx
	decq	%r8
	jne	.LBB9f2ddefe_38
	jmp	.LBB9f2ddefe_41
.LBB9f2ddefe_57:
	movl	%r11d, (%r12,%rcx,4)
	incq	%rax
	movq	%rax, 24(%rsp)
	leaq	36(%rsp), %rbp
	movq	8(%rsp), %r8
	jmp	.LBB9f2ddefe_33
.LBB9f2ddefe_13:
	xorl	%ecx, %ecx
	jmp	.LBB9f2ddefe_49
.LBB9f2ddefe_34:
	movl	$1, %ecx
.LBB9f2ddefe_49:
	movw	$0, (%rbx)
	movq	%r14, 8(%rbx)
	movq	%rax, 16(%rbx)
	movl	%ecx, 24(%rbx)
	movups	(%rbp), %xmm0
	movups	16(%rbp), %xmm1
	movups	%xmm0, 28(%rbx)
	movups	%xmm1, 44(%rbx)
.LBB9f2ddefe_52:
	addq	$72, %rsp
	popq	%rbx
	popq	%r12
	popq	%r13
	popq	%r14
	popq	%r15
	popq	%rbp
	retq
.LBB9f2ddefe_41:
	cmpq	$3, %r14
	jne	.LBB9f2ddefe_43
	xorps	%xmm0, %xmm0
	leaq	36(%rsp), %rbp
	movups	%xmm0, 16(%rbp)
	movups	%xmm0, (%rbp)
	movq	8(%rsp), %rcx
	jmp	.LBB9f2ddefe_47
.LBB9f2ddefe_43:
	movq	48(%rsp), %r12
	testq	%r12, %r12
	leaq	36(%rsp), %rbp
	movq	8(%rsp), %rcx
	je	.LBB9f2ddefe_47
	movq	40(%rsp), %r14
	cmpq	$1, %r12
	je	.LBB9f2ddefe_46
	leaq	-4(,%r12,4), %rax
	movq	%r14, %rdi
	xorl	%esi, %esi
	movq	%rdx, %r15
	movq	%rax, %rdx
	movq	%rcx, %r13
	callq	memset@PLT
	movq	%r13, %rcx
	movq	%r15, %rdx
.LBB9f2ddefe_46:
	movl	$0, -4(%r14,%r12,4)
.LBB9f2ddefe_47:
	movq	$0, 24(%rsp)
	leaq	16(%rsp), %rdi
	xorl	%esi, %esi
	callq	hll_coupons.filling.put_by_cycles.8a2f8b2564a2651f
	testb	%al, %al
	je	.LBB9f2ddefe_48
	cmpb	$0, 32(%rsp)
	je	.LBB9f2ddefe_56
	cmpq	$0, 56(%rsp)
	je	.LBB9f2ddefe_56
	movq	40(%rsp), %rdi
	movl	%edx, %ebp
	callq	rattle_dealloc@PLT
	movl	%ebp, %edx
.LBB9f2ddefe_56:
	movb	$1, (%rbx)
	movb	%dl, 1(%rbx)
	jmp	.LBB9f2ddefe_51
.LBB9f2ddefe_4:
	xorl	%esi, %esi
.LBB9f2ddefe_6:
	movq	%rbp, %rdx
	movl	$0, (%r12,%rsi,4)
	incq	%rsi
	movl	$1, %eax
	jmp	.LBB9f2ddefe_7
.LBB9f2ddefe_48:
	movq	16(%rsp), %r14
	movq	24(%rsp), %rax
	movzbl	32(%rsp), %ecx
	jmp	.LBB9f2ddefe_49
.Lfunc_end9f2ddefe:
	.size	hll_coupons.hash_set.HashSet.from_container.8a2f8b2564a2651f, .Lfunc_end9f2ddefe-hll_coupons.hash_set.HashSet.from_container.8a2f8b2564a2651f

	.section	.text.hll_kernels.kernels.all_zero,"ax",@progbits
	.p2align	4
	.type	hll_kernels.kernels.all_zero,@function
hll_kernels.kernels.all_zero:
	movq	%rsi, %rax
	shrq	$6, %rax
	movq	%rdi, %rcx
	je	.LBBc7f1ad01_1
	.p2align	4
.LBBc7f1ad01_5:
	movdqu	(%rcx), %xmm0
	movdqu	16(%rcx), %xmm1
	por	%xmm0, %xmm1
	movdqu	32(%rcx), %xmm0
	movdqu	48(%rcx), %xmm2
	por	%xmm0, %xmm2
	por	%xmm1, %xmm2
	ptest	%xmm2, %xmm2
	jne	.LBBc7f1ad01_6
	addq	$64, %rcx
	decq	%rax
	jne	.LBBc7f1ad01_5
.LBBc7f1ad01_1:
	movq	%rsi, %rax
	andq	$-64, %rax
	addq	%rax, %rdi
	andl	$63, %esi
	xorl	%ecx, %ecx
	.p2align	4
.LBBc7f1ad01_2:
	cmpq	%rcx, %rsi
	sete	%al
	je	.LBBc7f1ad01_7
	cmpb	$0, (%rdi,%rcx)
	leaq	1(%rcx), %rcx
	je	.LBBc7f1ad01_2
.LBBc7f1ad01_7:
	retq
.LBBc7f1ad01_6:
	xorl	%eax, %eax
	retq
.Lfunc_endc7f1ad01:
	.size	hll_kernels.kernels.all_zero, .Lfunc_endc7f1ad01-hll_kernels.kernels.all_zero

	.section	.text.hll_sketch.sketch.HllSketch.add_each.8a2f8b2564a2651f,"ax",@progbits
	.p2align	4
	.type	hll_sketch.sketch.HllSketch.add_each.8a2f8b2564a2651f,@function
hll_sketch.sketch.HllSketch.add_each.8a2f8b2564a2651f:
	pushq	%rbp
	pushq	%r15
	pushq	%r14
	pushq	%r13
	pushq	%r12
	pushq	%rbx
	pushq	%rax
	movq	%rsi, %rbx
	movq	%rdi, %r14
	movzbl	8(%rdi), %eax
	leaq	.LJTI68789342_0(%rip), %rcx
	movslq	(%rcx,%rax,4), %rax
	addq	%rcx, %rax
	jmpq	*%rax
.LBB68789342_1:
	cmpb	$0, 16(%rbx)
	je	.LBB68789342_2
	movq	32(%rbx), %r12
	movq	24(%rbx), %rbx
	jmp	.LBB68789342_4
.LBB68789342_13:
	addq	$16, %r14
	movq	%r14, %rdi
	movq	%rbx, %rsi
	addq	$8, %rsp
	popq	%rbx
	popq	%r12
	popq	%r13
	popq	%r14
	popq	%r15
	popq	%rbp
	jmp	hll_coupons.hash_set.HashSet.update_each.8a2f8b2564a2651f
.LBB68789342_14:
	cmpb	$0, 16(%rbx)
	je	.LBB68789342_15
	movq	32(%rbx), %rax
	movq	24(%rbx), %rbx
	jmp	.LBB68789342_17
.LBB68789342_2:
	addq	$20, %rbx
	movl	$8, %r12d
.LBB68789342_4:
	xorl	%r13d, %r13d
	jmp	.LBB68789342_5
	.p2align	4
.LBB68789342_7:
	incq	%r13
.LBB68789342_5:
	cmpq	%r13, %r12
	je	.LBB68789342_24
	movl	(%rbx,%r13,4), %ebp
	testl	%ebp, %ebp
	je	.LBB68789342_7
	movzbl	16(%r14), %ecx
	movl	$1, %r15d
	shlq	%cl, %r15
	leaq	16(%r14), %rdi
	movl	%ebp, %esi
	callq	hll_coupons.list.List.contains.309f015d8caa795c
	testb	%al, %al
	jne	.LBB68789342_7
	xorb	$1, %al
	movq	24(%r14), %rcx
	movzbl	%al, %eax
	addq	%rcx, %rax
	cmpq	%rax, %r15
	jb	.LBB68789342_7
	cmpb	$0, 32(%r14)
	je	.LBB68789342_11
	movq	40(%r14), %rax
	movl	%ebp, (%rax,%rcx,4)
	incq	24(%r14)
	incq	%r13
	jmp	.LBB68789342_5
.LBB68789342_11:
	movl	%ebp, 36(%r14,%rcx,4)
	incq	24(%r14)
	incq	%r13
	jmp	.LBB68789342_5
.LBB68789342_15:
	addq	$20, %rbx
	movl	$8, %eax
.LBB68789342_17:
	leaq	56(%r14), %rdx
	leaq	81(%r14), %rsi
	xorl	%edi, %edi
	cmpq	%rdi, %rax
	jne	.LBB68789342_19
	jmp	.LBB68789342_24
	.p2align	4
.LBB68789342_20:
	incq	%rdi
	cmpq	%rdi, %rax
	je	.LBB68789342_24
.LBB68789342_19:
	movl	(%rbx,%rdi,4), %r8d
	testq	%r8, %r8
	je	.LBB68789342_20
	movzbl	16(%r14), %ecx
	movq	$-1, %r9
	shlq	%cl, %r9
	notl	%r9d
	andl	%r8d, %r9d
	andl	$67108863, %r9d
	movq	32(%r14), %rcx
	movzbl	(%rcx,%r9), %r10d
	shrl	$26, %r8d
	cmpb	%r8b, %r10b
	jae	.LBB68789342_20
	movzbl	20(%r14), %r11d
	cmpl	$1, %r11d
	sete	%bpl
	testb	%r10b, %r10b
	sete	%r10b
	andb	%bpl, %r10b
	movzbl	%r10b, %r10d
	movl	%r11d, 20(%r14)
	subl	%r10d, 24(%r14)
	movb	%r8b, (%rcx,%r9)
	xorps	%xmm0, %xmm0
	movups	%xmm0, (%rdx)
	movq	$0, 16(%rdx)
	movb	$1, 80(%r14)
	movl	$0, 3(%rsi)
	movl	$0, (%rsi)
	incq	%rdi
	cmpq	%rdi, %rax
	jne	.LBB68789342_19
.LBB68789342_24:
	addq	$8, %rsp
	popq	%rbx
	popq	%r12
	popq	%r13
	popq	%r14
	popq	%r15
	popq	%rbp
	retq
.LBB68789342_23:
	ud2
.Lfunc_end68789342:
	.size	hll_sketch.sketch.HllSketch.add_each.8a2f8b2564a2651f, .Lfunc_end68789342-hll_sketch.sketch.HllSketch.add_each.8a2f8b2564a2651f
	.section	.rodata.hll_sketch.sketch.HllSketch.add_each.8a2f8b2564a2651f,"a",@progbits
	.p2align	2, 0x0
.LJTI68789342_0:
	.long	.LBB68789342_1-.LJTI68789342_0
	.long	.LBB68789342_13-.LJTI68789342_0
	.long	.LBB68789342_23-.LJTI68789342_0
	.long	.LBB68789342_23-.LJTI68789342_0
	.long	.LBB68789342_14-.LJTI68789342_0

	.section	.text.hll_coupons.hash_set.HashSet.update_each.8a2f8b2564a2651f,"ax",@progbits
	.p2align	4
	.type	hll_coupons.hash_set.HashSet.update_each.8a2f8b2564a2651f,@function
hll_coupons.hash_set.HashSet.update_each.8a2f8b2564a2651f:
	pushq	%rbp
	pushq	%r15
	pushq	%r14
	pushq	%r13
	pushq	%r12
	pushq	%rbx
	pushq	%rax
	movq	%rsi, %rbx
	movq	%rdi, %r14
	cmpb	$0, 16(%rsi)
	je	.LBB7d4c3d00_1
	movq	24(%rbx), %r15
	movq	32(%rbx), %r12
	jmp	.LBB7d4c3d00_3
.LBB7d4c3d00_1:
	leaq	20(%rbx), %r15
	movl	$8, %r12d
.LBB7d4c3d00_3:
	leaq	20(%r14), %r13
	jmp	.LBB7d4c3d00_4
.LBB7d4c3d00_30:
	cmpq	%rdx, %rax
	jb	.LBB7d4c3d00_31
	.p2align	4
.LBB7d4c3d00_4:
	testq	%r12, %r12
	je	.LBB7d4c3d00_15
	decq	%r12
	movl	(%r15), %ebp
	addq	$4, %r15
	testq	%rbp, %rbp
	je	.LBB7d4c3d00_4
	movq	(%r14), %rcx
	movzbl	16(%r14), %eax
	testb	%al, %al
	je	.LBB7d4c3d00_7
	movq	32(%r14), %rdi
	cmpq	$64, %rdi
	movl	$64, %esi
	cmovbq	%rdi, %rsi
	movl	%ebp, %edx
	andl	$67108863, %edx
	shrl	%cl, %edx
	testq	%rdi, %rdi
	je	.LBB7d4c3d00_14
	movq	24(%r14), %rdi
	jmp	.LBB7d4c3d00_10
	.p2align	4
.LBB7d4c3d00_7:
	movl	%ebp, %edx
	andl	$67108863, %edx
	shrl	%cl, %edx
	movl	$8, %esi
	movq	%r13, %rdi
.LBB7d4c3d00_10:
	movq	$-1, %r8
	shlq	%cl, %r8
	orl	$1, %edx
	notq	%r8
	movq	%rbp, %rcx
	.p2align	4
.LBB7d4c3d00_11:
	andq	%r8, %rcx
	movl	(%rdi,%rcx,4), %r9d
	testl	%r9d, %r9d
	je	.LBB7d4c3d00_16
	cmpl	%ebp, %r9d
	je	.LBB7d4c3d00_16
	addq	%rdx, %rcx
	decq	%rsi
	jne	.LBB7d4c3d00_11
.LBB7d4c3d00_14:
	movq	%r14, %rdi
	movq	%rbx, %rsi
	callq	hll_coupons.hash_set.HashSet.update_by_order.8a2f8b2564a2651f
	testb	%al, %al
	jne	.LBB7d4c3d00_15
	movq	(%r14), %rcx
	movl	$1, %eax
	shlq	%cl, %rax
	movq	8(%r14), %rdx
	movzbl	16(%r14), %esi
	testb	%sil, %sil
	je	.LBB7d4c3d00_20
	movq	32(%r14), %r8
	movl	%ebp, %edi
	andl	$67108863, %edi
	shrl	%cl, %edi
	testq	%r8, %r8
	je	.LBB7d4c3d00_31
	movq	24(%r14), %r9
	jmp	.LBB7d4c3d00_23
	.p2align	4
.LBB7d4c3d00_16:
	testl	%r9d, %r9d
	jne	.LBB7d4c3d00_4
	testb	%al, %al
	jne	.LBB7d4c3d00_29
.LBB7d4c3d00_18:
	movl	%ebp, (%r13,%rcx,4)
	incq	8(%r14)
	jmp	.LBB7d4c3d00_4
.LBB7d4c3d00_20:
	movl	%ebp, %edi
	andl	$67108863, %edi
	shrl	%cl, %edi
	movl	$8, %r8d
	movq	%r13, %r9
.LBB7d4c3d00_23:
	movq	$-1, %r10
	shlq	%cl, %r10
	orl	$1, %edi
	notq	%r10
	movq	%rbp, %rcx
	.p2align	4
.LBB7d4c3d00_24:
	andq	%r10, %rcx
	movl	(%r9,%rcx,4), %r11d
	testl	%r11d, %r11d
	je	.LBB7d4c3d00_27
	cmpl	%ebp, %r11d
	je	.LBB7d4c3d00_27
	addq	%rdi, %rcx
	decq	%r8
	jne	.LBB7d4c3d00_24
	jmp	.LBB7d4c3d00_31
	.p2align	4
.LBB7d4c3d00_27:
	xorl	%edi, %edi
	testl	%r11d, %r11d
	setne	%r8b
	sete	%dil
	addq	%rdi, %rdx
	cmpq	%rdx, %rax
	setb	%dil
	orb	%r8b, %dil
	jne	.LBB7d4c3d00_30
	testb	%sil, %sil
	je	.LBB7d4c3d00_18
.LBB7d4c3d00_29:
	movq	24(%r14), %rax
	movl	%ebp, (%rax,%rcx,4)
	incq	8(%r14)
	jmp	.LBB7d4c3d00_4
.LBB7d4c3d00_15:
	addq	$8, %rsp
	popq	%rbx
	popq	%r12
	popq	%r13
	popq	%r14
	popq	%r15
	popq	%rbp
	retq
.LBB7d4c3d00_31:
	ud2
.Lfunc_end7d4c3d00:
	.size	hll_coupons.hash_set.HashSet.update_each.8a2f8b2564a2651f, .Lfunc_end7d4c3d00-hll_coupons.hash_set.HashSet.update_each.8a2f8b2564a2651f

	.section	.text.hll_coupons.hash_set.HashSet.update_by_order.8a2f8b2564a2651f,"ax",@progbits
	.p2align	4
	.type	hll_coupons.hash_set.HashSet.update_by_order.8a2f8b2564a2651f,@function
hll_coupons.hash_set.HashSet.update_by_order.8a2f8b2564a2651f:
	pushq	%rbp
	pushq	%r15
	pushq	%r14
	pushq	%r13
	pushq	%r12
	pushq	%rbx
	subq	$168, %rsp
	cmpq	$8, 8(%rsi)
	jbe	.LBBc8cb0b13_1
	movq	%rdi, %rbx
	movq	%rsi, %r14
	xorps	%xmm0, %xmm0
	movaps	%xmm0, 64(%rsp)
	movaps	%xmm0, 48(%rsp)
	leaq	48(%rsp), %rdi
	movq	%rbx, %rsi
	callq	hll_coupons.container.Container.ascending.9bc580afffac16c1
	movups	56(%rsp), %xmm0
	movaps	%xmm0, 144(%rsp)
	movq	72(%rsp), %rax
	movq	%rax, 160(%rsp)
	cmpb	$0, 48(%rsp)
	je	.LBBc8cb0b13_4
.LBBc8cb0b13_1:
	xorl	%eax, %eax
.LBBc8cb0b13_2:
	addq	$168, %rsp
	popq	%rbx
	popq	%r12
	popq	%r13
	popq	%r14
	popq	%r15
	popq	%rbp
	retq
.LBBc8cb0b13_4:
	movaps	144(%rsp), %xmm0
	movaps	%xmm0, 96(%rsp)
	movq	160(%rsp), %rax
	movq	%rax, 112(%rsp)
	leaq	120(%rsp), %rax
	movq	96(%rsp), %r13
	movq	104(%rsp), %r9
	xorps	%xmm0, %xmm0
	movaps	%xmm0, 48(%rsp)
	movaps	%xmm0, 64(%rsp)
	leaq	8(%rsp), %rbp
	movq	%rbp, 56(%rsp)
	movq	%rax, 80(%rsp)
	movq	%r14, %r8
	cmpb	$0, 16(%r14)
	je	.LBBc8cb0b13_5
	movq	32(%r8), %r14
	movq	24(%r8), %r8
	jmp	.LBBc8cb0b13_7
.LBBc8cb0b13_5:
	addq	$20, %r8
	movl	$8, %r14d
.LBBc8cb0b13_7:
	leaq	20(%rbx), %r10
	xorl	%r12d, %r12d
	.p2align	4
.LBBc8cb0b13_8:
	testq	%r14, %r14
	je	.LBBc8cb0b13_47
	decq	%r14
	movl	(%r8), %r15d
	addq	$4, %r8
	testq	%r15, %r15
	je	.LBBc8cb0b13_8
	cmpq	$1, %r9
	je	.LBBc8cb0b13_11
	testq	%r9, %r9
	je	.LBBc8cb0b13_19
	xorl	%eax, %eax
	movq	%r9, %rcx
	jmp	.LBBc8cb0b13_14
	.p2align	4
.LBBc8cb0b13_16:
	subq	%rdx, %rcx
	cmpq	$1, %rcx
	jbe	.LBBc8cb0b13_17
.LBBc8cb0b13_14:
	movq	%rcx, %rdx
	shrq	%rdx
	leaq	(%rdx,%rax), %rsi
	cmpl	%r15d, (%r13,%rsi,4)
	ja	.LBBc8cb0b13_16
	movq	%rsi, %rax
	jmp	.LBBc8cb0b13_16
.LBBc8cb0b13_11:
	xorl	%eax, %eax
	cmpl	%r15d, (%r13,%rax)
	je	.LBBc8cb0b13_8
	jmp	.LBBc8cb0b13_19
.LBBc8cb0b13_17:
	shlq	$2, %rax
	cmpl	%r15d, (%r13,%rax)
	je	.LBBc8cb0b13_8
.LBBc8cb0b13_19:
	movq	%rbp, %rdi
	movq	%r9, 16(%rsp)
	cmpb	$0, 16(%rbx)
	je	.LBBc8cb0b13_20
	movq	24(%rbx), %r9
	movq	32(%rbx), %rbp
	jmp	.LBBc8cb0b13_22
.LBBc8cb0b13_20:
	movl	$8, %ebp
	movq	%r10, %r9
.LBBc8cb0b13_22:
	movq	(%rbx), %r11
	xorps	%xmm0, %xmm0
	movaps	%xmm0, 128(%rsp)
	testq	%r12, %r12
	movq	%r8, 40(%rsp)
	movq	%r9, 24(%rsp)
	je	.LBBc8cb0b13_24
	movq	%r12, %rsi
	movq	%r11, %rdx
	movl	%r15d, %ecx
	movq	%r10, %r12
	movq	%r11, 32(%rsp)
	callq	hll_coupons.long_searches.LongSearches.end_by_cycle.c2bc3268344032de
	movq	32(%rsp), %r11
	movq	24(%rsp), %r9
	movq	%r12, %r10
	movq	40(%rsp), %r8
	cmpb	$1, %al
	jne	.LBBc8cb0b13_24
.LBBc8cb0b13_37:
	movq	16(%rsp), %r9
	cmpb	$0, 16(%rbx)
	je	.LBBc8cb0b13_39
.LBBc8cb0b13_40:
	movq	24(%rbx), %rax
	movl	%r15d, (%rax,%rdx,4)
	jmp	.LBBc8cb0b13_41
.LBBc8cb0b13_24:
	cmpq	$64, %rbp
	movl	$64, %eax
	cmovbq	%rbp, %rax
	movl	%r15d, %edi
	andl	$67108863, %edi
	movl	%r11d, %ecx
	shrl	%cl, %edi
	movq	$-1, %r12
	shlq	%cl, %r12
	orl	$1, %edi
	notq	%r12
	testq	%rbp, %rbp
	je	.LBBc8cb0b13_29
	movq	%rax, %rcx
	movq	%r15, %rdx
.LBBc8cb0b13_26:
	andq	%r12, %rdx
	movl	(%r9,%rdx,4), %esi
	testl	%esi, %esi
	je	.LBBc8cb0b13_37
	cmpl	%r15d, %esi
	je	.LBBc8cb0b13_37
	addq	%rdi, %rdx
	decq	%rcx
	jne	.LBBc8cb0b13_26
.LBBc8cb0b13_29:
	movq	%rdi, 32(%rsp)
	movq	%rax, (%rsp)
	leaq	128(%rsp), %rdi
	leaq	48(%rsp), %rsi
	movq	%r11, %rdx
	movq	%r9, %rcx
	movq	%rbp, %r8
	movl	%r15d, %r9d
	callq	hll_coupons.long_searches.LongSearches.end_of_long.fb6abafa58d97c46
	cmpb	$0, 128(%rsp)
	je	.LBBc8cb0b13_30
	testq	%rbp, %rbp
	movq	40(%rsp), %r8
	leaq	20(%rbx), %r10
	movq	24(%rsp), %rcx
	movq	32(%rsp), %rsi
	je	.LBBc8cb0b13_36
	movq	%r15, %rdx
.LBBc8cb0b13_33:
	andq	%r12, %rdx
	movl	(%rcx,%rdx,4), %eax
	testl	%eax, %eax
	je	.LBBc8cb0b13_37
	cmpl	%r15d, %eax
	je	.LBBc8cb0b13_37
	addq	%rsi, %rdx
	decq	%rbp
	jne	.LBBc8cb0b13_33
	jmp	.LBBc8cb0b13_36
.LBBc8cb0b13_30:
	movq	136(%rsp), %rdx
	movq	40(%rsp), %r8
	movq	16(%rsp), %r9
	leaq	20(%rbx), %r10
	cmpb	$0, 16(%rbx)
	jne	.LBBc8cb0b13_40
.LBBc8cb0b13_39:
	movl	%r15d, (%r10,%rdx,4)
.LBBc8cb0b13_41:
	incq	8(%rbx)
	movq	56(%rsp), %rbp
	movq	64(%rsp), %rdi
	xorl	%r12d, %r12d
	testq	%rdi, %rdi
	je	.LBBc8cb0b13_8
	movq	%rbp, 24(%rsp)
	movq	%rbp, %r9
	movq	%rdi, %r10
	jmp	.LBBc8cb0b13_43
.LBBc8cb0b13_45:
	addq	$88, %r9
	decq	%r10
	je	.LBBc8cb0b13_46
.LBBc8cb0b13_43:
	movzbl	(%r9), %ecx
	movq	16(%r9), %rsi
	movq	$-1, %rax
	shlq	%cl, %rax
	imulq	%rdx, %rsi
	notq	%rax
	andq	%rsi, %rax
	movq	24(%r9), %r12
	movq	56(%r9), %r11
	movq	%rax, %rsi
	shrq	$6, %rsi
	movq	$-2, %rbp
	movl	%eax, %ecx
	rolq	%cl, %rbp
	movq	$-2, %r15
	andq	%rbp, (%r12,%rsi,8)
	jne	.LBBc8cb0b13_45
	movl	%esi, %ecx
	rolq	%cl, %r15
	shrq	$12, %rax
	andq	%r15, (%r11,%rax,8)
	jmp	.LBBc8cb0b13_45
.LBBc8cb0b13_46:
	movq	%rdi, %r12
	movq	16(%rsp), %r9
	leaq	20(%rbx), %r10
	movq	24(%rsp), %rbp
	jmp	.LBBc8cb0b13_8
.LBBc8cb0b13_47:
	movq	72(%rsp), %r14
	testq	%r12, %r12
	je	.LBBc8cb0b13_54
	leaq	72(%rbp), %r15
	jmp	.LBBc8cb0b13_49
	.p2align	4
.LBBc8cb0b13_53:
	addq	$88, %r15
	decq	%r12
	je	.LBBc8cb0b13_54
.LBBc8cb0b13_49:
	movq	-16(%r15), %rbx
	movq	(%r15), %r13
	cmpq	$0, -32(%r15)
	je	.LBBc8cb0b13_51
	movq	-48(%r15), %rdi
	callq	rattle_dealloc@PLT
.LBBc8cb0b13_51:
	testq	%r13, %r13
	je	.LBBc8cb0b13_53
	movq	%rbx, %rdi
	callq	rattle_dealloc@PLT
	jmp	.LBBc8cb0b13_53
.LBBc8cb0b13_54:
	testq	%r14, %r14
	je	.LBBc8cb0b13_56
	movq	%rbp, %rdi
	callq	rattle_dealloc@PLT
.LBBc8cb0b13_56:
	movb	$1, %al
	cmpq	$0, 112(%rsp)
	je	.LBBc8cb0b13_2
	movq	96(%rsp), %rdi
	callq	rattle_dealloc@PLT
	movb	$1, %al
	jmp	.LBBc8cb0b13_2
.LBBc8cb0b13_36:
	ud2
.Lfunc_endc8cb0b13:
	.size	hll_coupons.hash_set.HashSet.update_by_order.8a2f8b2564a2651f, .Lfunc_endc8cb0b13-hll_coupons.hash_set.HashSet.update_by_order.8a2f8b2564a2651f

	.section	.text.hll_coupons.container.Container.ascending.9bc580afffac16c1,"ax",@progbits
	.p2align	4
	.type	hll_coupons.container.Container.ascending.9bc580afffac16c1,@function
hll_coupons.container.Container.ascending.9bc580afffac16c1:
	pushq	%rbp
	pushq	%r15
	pushq	%r14
	pushq	%r12
	pushq	%rbx
	subq	$32, %rsp
	movq	%rdi, %rbx
	movq	8(%rsi), %r14
	testq	%r14, %r14
	je	.LBBe6ede40c_1
	movq	%r14, %rax
	shrq	$61, %rax
	jne	.LBBe6ede40c_17
	leaq	(,%r14,4), %rdi
	movq	%rsi, %r15
	movl	$4, %esi
	callq	rattle_alloc@PLT
	testb	$1, %al
	je	.LBBe6ede40c_17
	movq	%r15, %rsi
	jmp	.LBBe6ede40c_5
.LBBe6ede40c_1:
	leaq	4(%rsp), %rdx
.LBBe6ede40c_5:
	movq	%rdx, 8(%rsp)
	movq	$0, 16(%rsp)
	movq	%r14, 24(%rsp)
	cmpb	$0, 16(%rsi)
	je	.LBBe6ede40c_6
	movq	32(%rsi), %r15
	movq	24(%rsi), %rsi
	jmp	.LBBe6ede40c_8
.LBBe6ede40c_6:
	addq	$20, %rsi
	movl	$8, %r15d
.LBBe6ede40c_8:
	xorl	%r14d, %r14d
	.p2align	4
.LBBe6ede40c_9:
	testq	%r15, %r15
	je	.LBBe6ede40c_18
	decq	%r15
	movl	(%rsi), %ebp
	addq	$4, %rsi
	testl	%ebp, %ebp
	je	.LBBe6ede40c_9
	cmpq	%r14, 24(%rsp)
	je	.LBBe6ede40c_12
.LBBe6ede40c_14:
	movl	%ebp, (%rdx,%r14,4)
	incq	%r14
	movq	%r14, 16(%rsp)
	jmp	.LBBe6ede40c_9
.LBBe6ede40c_12:
	movq	%rsi, %r12
	leaq	8(%rsp), %rdi
	movl	$1, %esi
	callq	std_alloc.vec.Vec.grow_amortized.e9163d01fd20791a
	testb	%al, %al
	je	.LBBe6ede40c_15
	movq	8(%rsp), %rdx
	movq	16(%rsp), %r14
	movq	%r12, %rsi
	jmp	.LBBe6ede40c_14
.LBBe6ede40c_18:
	movq	8(%rsp), %r15
	movq	24(%rsp), %r12
	movq	%r15, %rdi
	movq	%r14, %rsi
	callq	std_alloc.vec.Vec.sort_unstable.d18826c7c15f4115
	movw	$0, (%rbx)
	movq	%r15, 8(%rbx)
	movq	%r14, 16(%rbx)
	movq	%r12, 24(%rbx)
	jmp	.LBBe6ede40c_19
.LBBe6ede40c_15:
	cmpq	$0, 24(%rsp)
	je	.LBBe6ede40c_17
	movq	8(%rsp), %rdi
	callq	rattle_dealloc@PLT
.LBBe6ede40c_17:
	movw	$3073, (%rbx)
	xorps	%xmm0, %xmm0
	movups	%xmm0, 8(%rbx)
	movq	$0, 24(%rbx)
.LBBe6ede40c_19:
	addq	$32, %rsp
	popq	%rbx
	popq	%r12
	popq	%r14
	popq	%r15
	popq	%rbp
	retq
.Lfunc_ende6ede40c:
	.size	hll_coupons.container.Container.ascending.9bc580afffac16c1, .Lfunc_ende6ede40c-hll_coupons.container.Container.ascending.9bc580afffac16c1

	.section	.text.hll_coupons.long_searches.LongSearches.end_by_cycle.c2bc3268344032de,"ax",@progbits
	.p2align	4
	.type	hll_coupons.long_searches.LongSearches.end_by_cycle.c2bc3268344032de,@function
hll_coupons.long_searches.LongSearches.end_by_cycle.c2bc3268344032de:
	pushq	%r14
	pushq	%rbx
	pushq	%rax
	movl	%ecx, %eax
	movq	%rdx, %rcx
	movl	%eax, %ebx
	andl	$67108863, %ebx
	shrl	%cl, %ebx
	testq	%rsi, %rsi
	je	.LBBd63e36cf_4
	orl	$1, %ebx
	addq	$64, %rdi
	.p2align	4
.LBBd63e36cf_2:
	cmpl	%ebx, -56(%rdi)
	je	.LBBd63e36cf_6
	addq	$88, %rdi
	decq	%rsi
	jne	.LBBd63e36cf_2
.LBBd63e36cf_4:
	xorl	%edx, %edx
	xorl	%eax, %eax
	addq	$8, %rsp
	popq	%rbx
	popq	%r14
	retq
.LBBd63e36cf_6:
	movzbl	-64(%rdi), %ecx
	movl	%eax, %r8d
	movq	$-1, %r14
	shlq	%cl, %r14
	imulq	-48(%rdi), %r8
	notq	%r14
	andq	%r14, %r8
	movq	-40(%rdi), %rax
	movq	-32(%rdi), %rsi
	movq	-8(%rdi), %rdx
	movq	(%rdi), %rcx
	movq	%rax, %rdi
	callq	hll_coupons.cycle.next_round
	movl	%ebx, %ecx
	imulq	%rdx, %rcx
	andq	%r14, %rcx
	xorl	%edx, %edx
	cmpb	$1, %al
	sete	%al
	cmoveq	%rcx, %rdx
	addq	$8, %rsp
	popq	%rbx
	popq	%r14
	retq
.Lfunc_endd63e36cf:
	.size	hll_coupons.long_searches.LongSearches.end_by_cycle.c2bc3268344032de, .Lfunc_endd63e36cf-hll_coupons.long_searches.LongSearches.end_by_cycle.c2bc3268344032de

	.section	.text.hll_coupons.long_searches.LongSearches.end_of_long.fb6abafa58d97c46,"ax",@progbits
	.p2align	4
	.type	hll_coupons.long_searches.LongSearches.end_of_long.fb6abafa58d97c46,@function
hll_coupons.long_searches.LongSearches.end_of_long.fb6abafa58d97c46:
	pushq	%rbp
	pushq	%r15
	pushq	%r14
	pushq	%r13
	pushq	%r12
	pushq	%rbx
	subq	$88, %rsp
	movl	%r9d, %ebp
	movq	%r8, %r13
	movq	%rcx, %rbx
	movq	%rdx, %r15
	movq	%rsi, %r12
	movq	%rdi, %r14
	movq	144(%rsp), %rax
	xorps	%xmm0, %xmm0
	movaps	%xmm0, 48(%rsp)
	movq	$0, 64(%rsp)
	movq	%rax, (%rsp)
	leaq	48(%rsp), %rdi
	xorl	%esi, %esi
	callq	hll_coupons.search.search_on
	cmpb	$1, 48(%rsp)
	jne	.LBBdfa16eb2_35
	movq	64(%rsp), %rax
	addq	(%r12), %rax
	movq	56(%rsp), %r9
	movq	$-1, %rdx
	cmovaeq	%rax, %rdx
	movq	%rdx, (%r12)
	cmpq	$6, %r15
	setae	%al
	movl	$4, %esi
	movl	%r15d, %ecx
	shlq	%cl, %rsi
	cmpq	%rdx, %rsi
	setbe	%cl
	testb	%cl, %al
	je	.LBBdfa16eb2_26
	movq	%r14, 40(%rsp)
	andl	$67108863, %ebp
	movl	%r15d, %ecx
	shrl	%cl, %ebp
	movq	$0, (%r12)
	movq	%r12, 80(%rsp)
	movq	32(%r12), %rax
	movq	%rax, 72(%rsp)
	movq	%r13, %rax
	shrq	$6, %rax
	movq	%r9, 32(%rsp)
	je	.LBBdfa16eb2_3
	movq	%r15, 16(%rsp)
	movq	%rax, %r15
	leaq	(,%rax,8), %r14
	movl	$8, %esi
	movq	%r14, %rdi
	callq	rattle_alloc@PLT
	testb	$1, %al
	je	.LBBdfa16eb2_33
	movq	%rdx, %r12
	cmpq	$1, %r15
	movq	%r15, 24(%rsp)
	jne	.LBBdfa16eb2_7
	xorl	%r14d, %r14d
	jmp	.LBBdfa16eb2_8
.LBBdfa16eb2_3:
	movq	%rax, 24(%rsp)
	leaq	8(%rsp), %r12
	xorl	%r14d, %r14d
	orl	$1, %ebp
	testq	%r13, %r13
	jne	.LBBdfa16eb2_10
	jmp	.LBBdfa16eb2_14
.LBBdfa16eb2_7:
	addq	$-8, %r14
	movq	%r12, %rdi
	xorl	%esi, %esi
	movq	%r14, %rdx
	callq	memset@PLT
	leaq	-1(%r15), %r14
.LBBdfa16eb2_8:
	movq	$0, (%r12,%r14,8)
	incq	%r14
	movq	16(%rsp), %r15
	orl	$1, %ebp
	testq	%r13, %r13
	je	.LBBdfa16eb2_14
.LBBdfa16eb2_10:
	movq	$-1, %rax
	movl	%r15d, %ecx
	shlq	%cl, %rax
	movl	%ebp, %edx
	notq	%rax
	xorl	%ecx, %ecx
	xorl	%esi, %esi
	jmp	.LBBdfa16eb2_11
	.p2align	4
.LBBdfa16eb2_13:
	addq	%rdx, %rsi
	andq	%rax, %rsi
	incq	%rcx
	cmpq	%rcx, %r13
	je	.LBBdfa16eb2_14
.LBBdfa16eb2_11:
	cmpl	$0, (%rbx,%rsi,4)
	jne	.LBBdfa16eb2_13
	movq	%rcx, %rdi
	movl	$1, %r8d
	shlq	%cl, %r8
	shrq	$6, %rdi
	orq	%r8, (%r12,%rdi,8)
	jmp	.LBBdfa16eb2_13
.LBBdfa16eb2_14:
	movq	%r14, %r13
	shrq	$6, %r13
	leaq	8(,%r13,8), %rbx
	movl	$8, %esi
	movq	%rbx, %rdi
	callq	rattle_alloc@PLT
	testb	$1, %al
	je	.LBBdfa16eb2_27
	testq	%r13, %r13
	je	.LBBdfa16eb2_17
	addq	$-8, %rbx
	movq	%rdx, %rdi
	xorl	%esi, %esi
	movq	%rdx, 16(%rsp)
	movq	%rbx, %rdx
	callq	memset@PLT
	movq	16(%rsp), %rdx
.LBBdfa16eb2_17:
	movq	$0, (%rdx,%r13,8)
	testq	%r14, %r14
	movq	32(%rsp), %r9
	je	.LBBdfa16eb2_22
	xorl	%ecx, %ecx
	jmp	.LBBdfa16eb2_19
	.p2align	4
.LBBdfa16eb2_21:
	incq	%rcx
	cmpq	%rcx, %r14
	je	.LBBdfa16eb2_22
.LBBdfa16eb2_19:
	cmpq	$0, (%r12,%rcx,8)
	je	.LBBdfa16eb2_21
	movq	%rcx, %rax
	shrq	$3, %rax
	movabsq	$1152921504606846968, %rsi
	movl	$1, %edi
	shlq	%cl, %rdi
	andq	%rax, %rsi
	orq	%rdi, (%rdx,%rsi)
	jmp	.LBBdfa16eb2_21
.LBBdfa16eb2_27:
	cmpq	$0, 24(%rsp)
	je	.LBBdfa16eb2_33
	movq	%r12, %rdi
.LBBdfa16eb2_32:
	callq	rattle_dealloc@PLT
.LBBdfa16eb2_33:
	movq	40(%rsp), %rax
	movw	$3073, (%rax)
	movq	$0, 8(%rax)
	jmp	.LBBdfa16eb2_34
.LBBdfa16eb2_22:
	movq	80(%rsp), %rbx
	movq	16(%rbx), %rax
	cmpq	%rax, 24(%rbx)
	je	.LBBdfa16eb2_23
.LBBdfa16eb2_25:
	incq	%r13
	movl	$2, %ecx
	movl	$2, %esi
	subl	%ebp, %esi
	movl	%esi, %edi
	imull	%ebp, %edi
	movl	$2, %r8d
	subl	%edi, %r8d
	imull	%esi, %r8d
	movl	%r8d, %esi
	imull	%ebp, %esi
	movl	$2, %edi
	subl	%esi, %edi
	imull	%r8d, %edi
	movl	%edi, %esi
	imull	%ebp, %esi
	movl	$2, %r8d
	subl	%esi, %r8d
	imull	%edi, %r8d
	movl	%r8d, %esi
	imull	%ebp, %esi
	subl	%esi, %ecx
	imull	%r8d, %ecx
	movq	8(%rbx), %rsi
	imulq	$88, %rax, %rdi
	movq	%r15, (%rsi,%rdi)
	movl	%ebp, 8(%rsi,%rdi)
	movl	$0, 12(%rsi,%rdi)
	movq	%rcx, 16(%rsi,%rdi)
	movq	%r12, 24(%rsi,%rdi)
	movq	%r14, 32(%rsi,%rdi)
	movq	24(%rsp), %rcx
	movq	%rcx, 40(%rsi,%rdi)
	movq	72(%rsp), %rcx
	movq	%rcx, 48(%rsi,%rdi)
	movq	%rdx, 56(%rsi,%rdi)
	movq	%r13, 64(%rsi,%rdi)
	movq	%r13, 72(%rsi,%rdi)
	movq	%rcx, 80(%rsi,%rdi)
	incq	%rax
	movq	%rax, 16(%rbx)
	movq	40(%rsp), %r14
.LBBdfa16eb2_26:
	movw	$0, (%r14)
	movq	%r9, 8(%r14)
.LBBdfa16eb2_34:
	addq	$88, %rsp
	popq	%rbx
	popq	%r12
	popq	%r13
	popq	%r14
	popq	%r15
	popq	%rbp
	retq
.LBBdfa16eb2_23:
	movq	%rdx, 16(%rsp)
	leaq	8(%rbx), %rdi
	callq	std_alloc.vec.Vec.grow_amortized.f683eea0f97a29d2
	testb	%al, %al
	je	.LBBdfa16eb2_29
	movq	16(%rbx), %rax
	movq	16(%rsp), %rdx
	movq	32(%rsp), %r9
	jmp	.LBBdfa16eb2_25
.LBBdfa16eb2_29:
	cmpq	$0, 24(%rsp)
	je	.LBBdfa16eb2_31
	movq	%r12, %rdi
	callq	rattle_dealloc@PLT
.LBBdfa16eb2_31:
	movq	16(%rsp), %rdi
	jmp	.LBBdfa16eb2_32
.LBBdfa16eb2_35:
	ud2
.Lfunc_enddfa16eb2:
	.size	hll_coupons.long_searches.LongSearches.end_of_long.fb6abafa58d97c46, .Lfunc_enddfa16eb2-hll_coupons.long_searches.LongSearches.end_of_long.fb6abafa58d97c46

	.section	.text.unlikely.std_alloc.vec.Vec.grow_amortized.f683eea0f97a29d2,"ax",@progbits
	.p2align	4
	.type	std_alloc.vec.Vec.grow_amortized.f683eea0f97a29d2,@function
std_alloc.vec.Vec.grow_amortized.f683eea0f97a29d2:
	movq	8(%rdi), %rax
	cmpq	$-1, %rax
	je	.LBBa9ab3192_5
	pushq	%r14
	pushq	%rbx
	pushq	%rax
	movq	16(%rdi), %rcx
	cmpq	$4, %rax
	movl	$3, %ebx
	cmovaeq	%rax, %rbx
	incq	%rbx
	movq	%rcx, %rsi
	shrq	$62, %rsi
	leaq	(%rcx,%rcx), %rdx
	cmpq	%rdx, %rbx
	cmovaq	%rbx, %rdx
	testq	%rsi, %rsi
	cmoveq	%rdx, %rbx
	movabsq	$104811045873349725, %rsi
	cmpq	%rsi, %rbx
	ja	.LBBa9ab3192_6
	testq	%rcx, %rcx
	je	.LBBa9ab3192_8
	movq	%rdi, %r14
	movq	(%rdi), %rdi
	imulq	$88, %rax, %rsi
	imulq	$88, %rbx, %rdx
	movl	$8, %ecx
	callq	rattle_realloc@PLT
	testb	$1, %al
	je	.LBBa9ab3192_6
.LBBa9ab3192_9:
	movq	%rdx, (%r14)
	movq	%rbx, 16(%r14)
	movb	$1, %al
	addq	$8, %rsp
	popq	%rbx
	popq	%r14
	retq
.LBBa9ab3192_5:
	xorl	%eax, %eax
	retq
.LBBa9ab3192_8:
	movq	%rdi, %r14
	imulq	$88, %rdx, %rdi
	movl	$8, %esi
	callq	rattle_alloc@PLT
	testb	$1, %al
	jne	.LBBa9ab3192_9
.LBBa9ab3192_6:
	xorl	%eax, %eax
	addq	$8, %rsp
	popq	%rbx
	popq	%r14
	retq
.Lfunc_enda9ab3192:
	.size	std_alloc.vec.Vec.grow_amortized.f683eea0f97a29d2, .Lfunc_enda9ab3192-std_alloc.vec.Vec.grow_amortized.f683eea0f97a29d2

	.section	.text.hll_registers.folds.max_by_stages.8fbc67663473d8ac,"ax",@progbits
	.p2align	4
	.type	hll_registers.folds.max_by_stages.8fbc67663473d8ac,@function
hll_registers.folds.max_by_stages.8fbc67663473d8ac:
	pushq	%rbp
	pushq	%r15
	pushq	%r14
	pushq	%r13
	pushq	%r12
	pushq	%rbx
	subq	$3072, %rsp
	movq	$0, (%rsp)
	subq	$3072, %rsp
	movq	$0, (%rsp)
	subq	$3072, %rsp
	movq	$0, (%rsp)
	subq	$3072, %rsp
	movq	$0, (%rsp)
	subq	$3072, %rsp
	movq	$0, (%rsp)
	subq	$1048, %rsp
	movq	%rcx, %r14
	movl	%edx, 12(%rsp)
	movq	%rsi, %rbx
	movq	%rdi, 16(%rsp)
	leaq	24(%rsp), %rdi
	xorl	%r12d, %r12d
	movl	$16384, %edx
	xorl	%esi, %esi
	callq	memset@PLT
	movzbl	(%r14), %eax
	movzbl	1(%r14), %ecx
	movb	%cl, 11(%rsp)
	addb	$-14, %al
	movzbl	%al, %r13d
	movq	8(%r14), %rbp
	addq	$32, %r14
	movl	$1, %r15d
	.p2align	4
.LBBad3f11cc_1:
	movzbl	11(%rsp), %r9d
	leaq	24(%rsp), %rdi
	movl	$16384, %esi
	movl	%r12d, %edx
	movq	%rbp, %rcx
	movq	%r14, %r8
	callq	hll_registers.exception_map.max_with_registers.309f015d8caa795c
	movq	%r15, %rax
	movl	%r13d, %ecx
	shrq	%cl, %rax
	addl	$16384, %r12d
	incq	%r15
	testq	%rax, %rax
	je	.LBBad3f11cc_1
	movb	$14, %al
	subb	12(%rsp), %al
	movzbl	%al, %r15d
	movl	$1, %r14d
	xorl	%r12d, %r12d
	movq	16(%rsp), %r13
	.p2align	4
.LBBad3f11cc_3:
	movl	%r12d, %eax
	leaq	(%rsp,%rax), %rdx
	addq	$24, %rdx
	movq	%r13, %rdi
	movq	%rbx, %rsi
	movq	%rbx, %rcx
	callq	hll_kernels.kernels.max_into
	movq	%r14, %rax
	movl	%r15d, %ecx
	shrq	%cl, %rax
	incq	%r14
	addq	%rbx, %r12
	testq	%rax, %rax
	je	.LBBad3f11cc_3
	addq	$16408, %rsp
	popq	%rbx
	popq	%r12
	popq	%r13
	popq	%r14
	popq	%r15
	popq	%rbp
	retq
.Lfunc_endad3f11cc:
	.size	hll_registers.folds.max_by_stages.8fbc67663473d8ac, .Lfunc_endad3f11cc-hll_registers.folds.max_by_stages.8fbc67663473d8ac

	.section	.text.hll_kernels.kernels.max_into,"ax",@progbits
	.p2align	4
	.type	hll_kernels.kernels.max_into,@function
hll_kernels.kernels.max_into:
	movq	%rcx, %r8
	shrq	$6, %r8
	andq	$-64, %rcx
	testq	%r8, %r8
	je	.LBBba92484a_7
	cmpq	$1, %r8
	jne	.LBBba92484a_3
	xorl	%eax, %eax
	jmp	.LBBba92484a_6
.LBBba92484a_3:
	movq	%r8, %r9
	andq	$-2, %r9
	movl	$64, %r10d
	xorl	%eax, %eax
	.p2align	4
.LBBba92484a_4:
	movdqu	-64(%rdx,%r10), %xmm0
	movdqu	-48(%rdx,%r10), %xmm1
	movdqu	-32(%rdx,%r10), %xmm2
	movdqu	-16(%rdx,%r10), %xmm3
	movdqu	-64(%rdi,%r10), %xmm4
	pmaxub	%xmm0, %xmm4
	movdqu	-48(%rdi,%r10), %xmm0
	pmaxub	%xmm1, %xmm0
	movdqu	-32(%rdi,%r10), %xmm1
	pmaxub	%xmm2, %xmm1
	movdqu	-16(%rdi,%r10), %xmm2
	pmaxub	%xmm3, %xmm2
	movdqu	%xmm2, -16(%rdi,%r10)
	movdqu	%xmm1, -32(%rdi,%r10)
	movdqu	%xmm0, -48(%rdi,%r10)
	movdqu	%xmm4, -64(%rdi,%r10)
	movdqu	(%rdx,%r10), %xmm0
	movdqu	16(%rdx,%r10), %xmm1
	movdqu	32(%rdx,%r10), %xmm2
	movdqu	48(%rdx,%r10), %xmm3
	movdqu	32(%rdi,%r10), %xmm4
	pmaxub	%xmm2, %xmm4
	movdqu	48(%rdi,%r10), %xmm2
	pmaxub	%xmm3, %xmm2
	movdqu	(%rdi,%r10), %xmm3
	pmaxub	%xmm0, %xmm3
	movdqu	16(%rdi,%r10), %xmm0
	pmaxub	%xmm1, %xmm0
	movdqu	%xmm4, 32(%rdi,%r10)
	movdqu	%xmm2, 48(%rdi,%r10)
	movdqu	%xmm3, (%rdi,%r10)
	movdqu	%xmm0, 16(%rdi,%r10)
	addq	$2, %rax
	subq	$-128, %r10
	cmpq	%rax, %r9
	jne	.LBBba92484a_4
	testb	$1, %r8b
	je	.LBBba92484a_7
.LBBba92484a_6:
	shlq	$6, %rax
	movdqu	(%rdx,%rax), %xmm0
	movdqu	16(%rdx,%rax), %xmm1
	movdqu	32(%rdx,%rax), %xmm2
	movdqu	48(%rdx,%rax), %xmm3
	movdqu	(%rdi,%rax), %xmm4
	pmaxub	%xmm0, %xmm4
	movdqu	16(%rdi,%rax), %xmm0
	pmaxub	%xmm1, %xmm0
	movdqu	32(%rdi,%rax), %xmm1
	pmaxub	%xmm2, %xmm1
	movdqu	48(%rdi,%rax), %xmm2
	pmaxub	%xmm3, %xmm2
	movdqu	%xmm1, 32(%rdi,%rax)
	movdqu	%xmm2, 48(%rdi,%rax)
	movdqu	%xmm4, (%rdi,%rax)
	movdqu	%xmm0, 16(%rdi,%rax)
.LBBba92484a_7:
	movq	%rsi, %r8
	subq	%rcx, %r8
	je	.LBBba92484a_23
	cmpq	$4, %r8
	jb	.LBBba92484a_9
	leaq	(%rdx,%rcx), %rax
	leaq	(%rdi,%rcx), %r9
	leaq	(%rdi,%rsi), %r10
	leaq	(%rdx,%rsi), %r11
	cmpq	%r11, %r9
	setb	%r9b
	cmpq	%r10, %rax
	setb	%al
	testb	%al, %r9b
	je	.LBBba92484a_12
.LBBba92484a_9:
	xorl	%eax, %eax
.LBBba92484a_21:
	addq	%rcx, %rax
	.p2align	4
.LBBba92484a_22:
	movzbl	(%rdi,%rax), %ecx
	movzbl	(%rdx,%rax), %r8d
	cmpb	%cl, %r8b
	cmoval	%r8d, %ecx
	movb	%cl, (%rdi,%rax)
	incq	%rax
	cmpq	%rax, %rsi
	jne	.LBBba92484a_22
.LBBba92484a_23:
	retq
.LBBba92484a_12:
	cmpq	$32, %r8
	jae	.LBBba92484a_14
	xorl	%eax, %eax
	jmp	.LBBba92484a_18
.LBBba92484a_14:
	movl	%esi, %r9d
	andl	$31, %r9d
	movq	%r8, %rax
	subq	%r9, %rax
	movq	%rsi, %r10
	andq	$-32, %r10
	movq	%rcx, %r11
	.p2align	4
.LBBba92484a_15:
	movdqu	(%rdi,%r11), %xmm0
	movdqu	16(%rdi,%r11), %xmm1
	movdqu	(%rdx,%r11), %xmm2
	pmaxub	%xmm0, %xmm2
	movdqu	16(%rdx,%r11), %xmm0
	pmaxub	%xmm1, %xmm0
	movdqu	%xmm2, (%rdi,%r11)
	movdqu	%xmm0, 16(%rdi,%r11)
	addq	$32, %r11
	cmpq	%r11, %r10
	jne	.LBBba92484a_15
	testq	%r9, %r9
	je	.LBBba92484a_23
	cmpl	$4, %r9d
	jb	.LBBba92484a_21
.LBBba92484a_18:
	movl	%esi, %r9d
	andl	$3, %r9d
	subq	%r9, %r8
	movq	%rsi, %r10
	andq	$-4, %r10
	addq	%rcx, %rax
	.p2align	4
.LBBba92484a_19:
	movd	(%rdi,%rax), %xmm0
	movd	(%rdx,%rax), %xmm1
	pmaxub	%xmm0, %xmm1
	movd	%xmm1, (%rdi,%rax)
	addq	$4, %rax
	cmpq	%rax, %r10
	jne	.LBBba92484a_19
	movq	%r8, %rax
	testq	%r9, %r9
	jne	.LBBba92484a_21
	jmp	.LBBba92484a_23
.Lfunc_endba92484a:
	.size	hll_kernels.kernels.max_into, .Lfunc_endba92484a-hll_kernels.kernels.max_into

	.section	.text.hll_sketch.sketch.HllSketch.add_table.8a2f8b2564a2651f,"ax",@progbits
	.p2align	4
	.type	hll_sketch.sketch.HllSketch.add_table.8a2f8b2564a2651f,@function
hll_sketch.sketch.HllSketch.add_table.8a2f8b2564a2651f:
	pushq	%r15
	pushq	%r14
	pushq	%rbx
	subq	$272, %rsp
	movq	%rdi, %rbx
	movzbl	8(%rdi), %eax
	leaq	.LJTI1369b690_0(%rip), %rcx
	movslq	(%rcx,%rax,4), %rax
	addq	%rcx, %rax
	jmpq	*%rax
.LBB1369b690_1:
	movzbl	16(%rbx), %ecx
	movl	$3, %eax
	shlq	%cl, %rax
	shrq	$2, %rax
	cmpb	$3, %cl
	movl	$7, %r15d
	cmovneq	%rax, %r15
	movq	8(%rsi), %rax
	addq	24(%rbx), %rax
	cmpq	%r15, %rax
	jbe	.LBB1369b690_3
	movq	%rbx, %rdi
	movq	%rsi, %r14
	callq	hll_sketch.sketch.HllSketch.count_with_all.8a2f8b2564a2651f
	movq	%r14, %rsi
	cmpq	%r15, %rax
	jbe	.LBB1369b690_3
.LBB1369b690_4:
	xorps	%xmm0, %xmm0
	movaps	%xmm0, 80(%rsp)
	movaps	%xmm0, 64(%rsp)
	movaps	%xmm0, 48(%rsp)
	movaps	%xmm0, 32(%rsp)
	movaps	%xmm0, 16(%rsp)
	movaps	%xmm0, (%rsp)
	movq	%rbx, %rdi
	movq	%rsi, %r14
	callq	hll_sketch.sketch.HllSketch.count_with_all.8a2f8b2564a2651f
	movzbl	8(%rbx), %ecx
	testl	%ecx, %ecx
	je	.LBB1369b690_6
	cmpl	$1, %ecx
	jne	.LBB1369b690_10
.LBB1369b690_6:
	leaq	16(%rbx), %rdx
	movzbl	(%rbx), %esi
	movq	%rsp, %rdi
	movq	%r14, %rcx
	movq	%rax, %r8
	callq	hll_sketch.promotion.mode_of_both.8a2f8b2564a2651f
	movzbl	1(%rsp), %edx
	movzbl	8(%rsp), %ecx
	movaps	16(%rsp), %xmm0
	movaps	%xmm0, 96(%rsp)
	movaps	32(%rsp), %xmm0
	movaps	%xmm0, 112(%rsp)
	movaps	48(%rsp), %xmm0
	movaps	%xmm0, 128(%rsp)
	movaps	64(%rsp), %xmm0
	movaps	%xmm0, 144(%rsp)
	movaps	80(%rsp), %xmm0
	movaps	%xmm0, 160(%rsp)
	cmpb	$0, (%rsp)
	movb	$1, %al
	jne	.LBB1369b690_9
	movzbl	8(%rbx), %eax
	movq	%rax, 184(%rsp)
	movups	16(%rbx), %xmm0
	movups	32(%rbx), %xmm1
	movups	48(%rbx), %xmm2
	movups	64(%rbx), %xmm3
	movups	%xmm1, 208(%rsp)
	movups	%xmm2, 224(%rsp)
	movups	%xmm3, 240(%rsp)
	movups	80(%rbx), %xmm1
	movups	%xmm1, 256(%rsp)
	movups	%xmm0, 192(%rsp)
	movq	%rcx, 8(%rbx)
	movaps	160(%rsp), %xmm0
	movups	%xmm0, 80(%rbx)
	movaps	96(%rsp), %xmm0
	movaps	112(%rsp), %xmm1
	movaps	128(%rsp), %xmm2
	movaps	144(%rsp), %xmm3
	movups	%xmm3, 64(%rbx)
	movups	%xmm2, 48(%rbx)
	movups	%xmm1, 32(%rbx)
	movups	%xmm0, 16(%rbx)
	leaq	184(%rsp), %rdi
	callq	hll_sketch.mode.Mode.drop.309f015d8caa795c
	jmp	.LBB1369b690_8
.LBB1369b690_3:
	movq	%rbx, %rdi
	callq	hll_sketch.sketch.HllSketch.add_each.8a2f8b2564a2651f
.LBB1369b690_8:
	xorl	%edx, %edx
	xorl	%eax, %eax
.LBB1369b690_9:
	addq	$272, %rsp
	popq	%rbx
	popq	%r14
	popq	%r15
	retq
.LBB1369b690_10:
	ud2
.Lfunc_end1369b690:
	.size	hll_sketch.sketch.HllSketch.add_table.8a2f8b2564a2651f, .Lfunc_end1369b690-hll_sketch.sketch.HllSketch.add_table.8a2f8b2564a2651f
	.section	.rodata.hll_sketch.sketch.HllSketch.add_table.8a2f8b2564a2651f,"a",@progbits
	.p2align	2, 0x0
.LJTI1369b690_0:
	.long	.LBB1369b690_1-.LJTI1369b690_0
	.long	.LBB1369b690_1-.LJTI1369b690_0
	.long	.LBB1369b690_4-.LJTI1369b690_0
	.long	.LBB1369b690_3-.LJTI1369b690_0
	.long	.LBB1369b690_3-.LJTI1369b690_0

	.section	.text.hll_sketch.sketch.HllSketch.count_with_all.8a2f8b2564a2651f,"ax",@progbits
	.p2align	4
	.type	hll_sketch.sketch.HllSketch.count_with_all.8a2f8b2564a2651f,@function
hll_sketch.sketch.HllSketch.count_with_all.8a2f8b2564a2651f:
	movzbl	8(%rdi), %eax
	leal	-2(%rax), %ecx
	cmpl	$3, %ecx
	jae	.LBB73ba5868_2
	movq	8(%rsi), %rax
	retq
.LBB73ba5868_2:
	pushq	%rbp
	pushq	%r15
	pushq	%r14
	pushq	%r13
	pushq	%r12
	pushq	%rbx
	subq	$56, %rsp
	cmpl	$1, %eax
	jne	.LBB73ba5868_5
	cmpb	$0, 16(%rsi)
	je	.LBB73ba5868_7
	movq	24(%rsi), %r14
	movq	32(%rsi), %r15
	jmp	.LBB73ba5868_8
.LBB73ba5868_5:
	cmpb	$0, 16(%rsi)
	je	.LBB73ba5868_47
	movq	32(%rsi), %r14
	movq	24(%rsi), %rsi
	jmp	.LBB73ba5868_48
.LBB73ba5868_7:
	leaq	20(%rsi), %r14
	movl	$8, %r15d
.LBB73ba5868_8:
	leaq	16(%rdi), %r12
	movq	24(%rdi), %rax
	leaq	36(%rdi), %rcx
	movq	%rcx, (%rsp)
	.p2align	4
.LBB73ba5868_9:
	testq	%r15, %r15
	je	.LBB73ba5868_71
	decq	%r15
	movl	(%r14), %r13d
	addq	$4, %r14
	testq	%r13, %r13
	je	.LBB73ba5868_9
	movq	16(%rdi), %rcx
	movzbl	32(%rdi), %r8d
	testb	%r8b, %r8b
	je	.LBB73ba5868_14
	movq	48(%rdi), %rdx
	cmpq	$64, %rdx
	movl	$64, %r10d
	cmovbq	%rdx, %r10
	movl	%r13d, %r9d
	andl	$67108863, %r9d
	shrl	%cl, %r9d
	testq	%rdx, %rdx
	je	.LBB73ba5868_24
	movq	40(%rdi), %r11
	jmp	.LBB73ba5868_15
.LBB73ba5868_14:
	movl	%r13d, %r9d
	andl	$67108863, %r9d
	shrl	%cl, %r9d
	movl	$8, %r10d
	movq	(%rsp), %r11
.LBB73ba5868_15:
	movq	$-1, %rdx
	shlq	%cl, %rdx
	orl	$1, %r9d
	notq	%rdx
	movq	%r13, %rbp
	.p2align	4
.LBB73ba5868_16:
	andq	%rdx, %rbp
	movl	(%r11,%rbp,4), %ebx
	testl	%ebx, %ebx
	je	.LBB73ba5868_23
	cmpl	%r13d, %ebx
	je	.LBB73ba5868_23
	addq	%r9, %rbp
	decq	%r10
	jne	.LBB73ba5868_16
	cmpq	$9, 8(%rsi)
	jae	.LBB73ba5868_26
	testb	%r8b, %r8b
	je	.LBB73ba5868_37
	movq	48(%rdi), %r9
	testq	%r9, %r9
	je	.LBB73ba5868_25
	movl	%r13d, %r8d
	andl	$67108863, %r8d
	shrl	%cl, %r8d
	movq	40(%rdi), %rcx
	jmp	.LBB73ba5868_38
.LBB73ba5868_23:
	testl	%ebx, %ebx
	jmp	.LBB73ba5868_44
.LBB73ba5868_24:
	cmpq	$9, 8(%rsi)
	jb	.LBB73ba5868_25
.LBB73ba5868_26:
	movq	%rdi, %rbx
	movq	%rax, 8(%rsp)
	movq	%r12, %rax
	movq	%rsi, %r12
	xorps	%xmm0, %xmm0
	movaps	%xmm0, 32(%rsp)
	movaps	%xmm0, 16(%rsp)
	leaq	16(%rsp), %rdi
	movq	%rax, %rbp
	movq	%rax, %rsi
	callq	hll_coupons.container.Container.ascending.9bc580afffac16c1
	cmpb	$0, 16(%rsp)
	je	.LBB73ba5868_52
	movq	%rbx, %rdi
	cmpb	$0, 32(%rbx)
	movq	%r12, %rsi
	je	.LBB73ba5868_29
	movq	40(%rdi), %rdx
	movq	48(%rdi), %r8
	jmp	.LBB73ba5868_30
.LBB73ba5868_29:
	movl	$8, %r8d
	movq	(%rsp), %rdx
.LBB73ba5868_30:
	movq	8(%rsp), %rax
	movq	%rbp, %r12
	movzbl	(%rbp), %ecx
	movl	%r13d, %r9d
	andl	$67108863, %r9d
	shrl	%cl, %r9d
	movq	$-1, %r10
	shlq	%cl, %r10
	testq	%r8, %r8
	je	.LBB73ba5868_25
	orl	$1, %r9d
	notq	%r10
	movq	%r13, %rcx
	.p2align	4
.LBB73ba5868_32:
	andq	%r10, %rcx
	movl	(%rdx,%rcx,4), %r11d
	testl	%r11d, %r11d
	je	.LBB73ba5868_43
	cmpl	%r13d, %r11d
	je	.LBB73ba5868_43
	addq	%r9, %rcx
	decq	%r8
	jne	.LBB73ba5868_32
	jmp	.LBB73ba5868_25
.LBB73ba5868_37:
	movl	%r13d, %r8d
	andl	$67108863, %r8d
	shrl	%cl, %r8d
	movl	$8, %r9d
	movq	(%rsp), %rcx
.LBB73ba5868_38:
	orl	$1, %r8d
	movq	%r13, %r10
	.p2align	4
.LBB73ba5868_39:
	andq	%rdx, %r10
	movl	(%rcx,%r10,4), %r11d
	testl	%r11d, %r11d
	je	.LBB73ba5868_43
	cmpl	%r13d, %r11d
	je	.LBB73ba5868_43
	addq	%r8, %r10
	decq	%r9
	jne	.LBB73ba5868_39
.LBB73ba5868_25:
	xorl	%ecx, %ecx
	jmp	.LBB73ba5868_45
.LBB73ba5868_43:
	testl	%r11d, %r11d
.LBB73ba5868_44:
	setne	%cl
.LBB73ba5868_45:
	xorb	$1, %cl
	movzbl	%cl, %ecx
	addq	%rcx, %rax
	jmp	.LBB73ba5868_9
.LBB73ba5868_47:
	addq	$20, %rsi
	movl	$8, %r14d
.LBB73ba5868_48:
	movq	24(%rdi), %rax
	addq	$16, %rdi
	.p2align	4
.LBB73ba5868_49:
	testq	%r14, %r14
	je	.LBB73ba5868_71
	decq	%r14
	movl	(%rsi), %ecx
	addq	$4, %rsi
	testl	%ecx, %ecx
	je	.LBB73ba5868_49
	movq	%rdi, %rbx
	movq	%rsi, %r12
	movl	%ecx, %esi
	movq	%rax, %r15
	callq	hll_coupons.list.List.contains.309f015d8caa795c
	movq	%rbx, %rdi
	movq	%r12, %rsi
	movl	%eax, %ecx
	movq	%r15, %rax
	xorb	$1, %cl
	movzbl	%cl, %ecx
	addq	%rcx, %rax
	jmp	.LBB73ba5868_49
.LBB73ba5868_52:
	movq	32(%rsp), %rax
	cmpb	$0, 16(%r12)
	je	.LBB73ba5868_54
	movq	32(%r12), %rcx
	movq	24(%r12), %r12
	jmp	.LBB73ba5868_55
.LBB73ba5868_54:
	addq	$20, %r12
	movl	$8, %ecx
.LBB73ba5868_55:
	movq	24(%rsp), %rdi
	movq	40(%rsp), %rsi
	testq	%rax, %rax
	je	.LBB73ba5868_73
	cmpq	$1, %rax
	jne	.LBB73ba5868_60
.LBB73ba5868_57:
	testq	%rcx, %rcx
	je	.LBB73ba5868_69
	decq	%rcx
	movl	(%r12), %r8d
	addq	$4, %r12
	testl	%r8d, %r8d
	je	.LBB73ba5868_57
	xorl	%r9d, %r9d
	cmpl	%r8d, (%rdi)
	setne	%r9b
	addq	%r9, %rax
	jmp	.LBB73ba5868_57
.LBB73ba5868_60:
	movq	%rax, %r8
.LBB73ba5868_61:
	testq	%rcx, %rcx
	je	.LBB73ba5868_68
	decq	%rcx
	movl	(%r12), %r9d
	addq	$4, %r12
	testl	%r9d, %r9d
	je	.LBB73ba5868_61
	xorl	%r10d, %r10d
	movq	%rax, %r11
	jmp	.LBB73ba5868_65
.LBB73ba5868_64:
	subq	%rbx, %r11
	cmpq	$1, %r11
	jbe	.LBB73ba5868_67
.LBB73ba5868_65:
	movq	%r11, %rbx
	shrq	%rbx
	leaq	(%rbx,%r10), %r14
	cmpl	%r9d, (%rdi,%r14,4)
	ja	.LBB73ba5868_64
	movq	%r14, %r10
	jmp	.LBB73ba5868_64
.LBB73ba5868_67:
	xorl	%r11d, %r11d
	cmpl	%r9d, (%rdi,%r10,4)
	setne	%r11b
	addq	%r11, %r8
	jmp	.LBB73ba5868_61
.LBB73ba5868_68:
	movq	%r8, %rax
.LBB73ba5868_69:
	testq	%rsi, %rsi
	je	.LBB73ba5868_71
	movq	%rax, %rbx
	callq	rattle_dealloc@PLT
	movq	%rbx, %rax
.LBB73ba5868_71:
	addq	$56, %rsp
	popq	%rbx
	popq	%r12
	popq	%r13
	popq	%r14
	popq	%r15
	popq	%rbp
	retq
.LBB73ba5868_72:
	incq	%rax
.LBB73ba5868_73:
	movq	%r12, %r8
.LBB73ba5868_74:
	testq	%rcx, %rcx
	je	.LBB73ba5868_69
	leaq	4(%r8), %r12
	decq	%rcx
	cmpl	$0, (%r8)
	movq	%r12, %r8
	je	.LBB73ba5868_74
	jmp	.LBB73ba5868_72
.Lfunc_end73ba5868:
	.size	hll_sketch.sketch.HllSketch.count_with_all.8a2f8b2564a2651f, .Lfunc_end73ba5868-hll_sketch.sketch.HllSketch.count_with_all.8a2f8b2564a2651f

	.section	.text.hll_sketch.promotion.mode_of_both.8a2f8b2564a2651f,"ax",@progbits
	.p2align	4
	.type	hll_sketch.promotion.mode_of_both.8a2f8b2564a2651f,@function
hll_sketch.promotion.mode_of_both.8a2f8b2564a2651f:
	pushq	%rbp
	pushq	%r15
	pushq	%r14
	pushq	%r13
	pushq	%r12
	pushq	%rbx
	subq	$328, %rsp
	movq	%rcx, %r14
	movq	%rdi, %rbx
	xorps	%xmm0, %xmm0
	movups	%xmm0, 236(%rsp)
	movaps	%xmm0, 224(%rsp)
	movl	$0, 32(%rsp)
	movl	$0, 35(%rsp)
	movl	$0, 24(%rsp)
	movl	$0, 27(%rsp)
	movaps	%xmm0, 80(%rsp)
	movaps	%xmm0, 96(%rsp)
	movaps	%xmm0, 112(%rsp)
	movq	$0, 128(%rsp)
	movaps	%xmm0, 48(%rsp)
	movups	%xmm0, 60(%rsp)
	movl	$0, 16(%rsp)
	movl	$0, 19(%rsp)
	movl	$0, 11(%rsp)
	movl	$0, 8(%rsp)
	movaps	%xmm0, 208(%rsp)
	movaps	%xmm0, 192(%rsp)
	movaps	%xmm0, 176(%rsp)
	movaps	%xmm0, 160(%rsp)
	movaps	%xmm0, 144(%rsp)
	movaps	%xmm0, 304(%rsp)
	movaps	%xmm0, 288(%rsp)
	movaps	%xmm0, 272(%rsp)
	movaps	%xmm0, 256(%rsp)
	movq	(%rdx), %rcx
	testb	$-4, %cl
	sete	%dil
	cmpq	$8, %r8
	setb	%r9b
	movl	$3, %eax
	testb	%dil, %r9b
	je	.LBB6c6885dc_1
.LBB6c6885dc_19:
	leaq	256(%rsp), %rdi
	movq	%rax, %rsi
	callq	hll_coupons.hash_set.HashSet.from_container.8a2f8b2564a2651f
	cmpb	$0, 256(%rsp)
	je	.LBB6c6885dc_20
	movzbl	257(%rsp), %eax
	jmp	.LBB6c6885dc_16
.LBB6c6885dc_1:
	leal	1(%rsi), %eax
	xorl	%r9d, %r9d
	subb	$3, %al
	movzbl	%al, %edi
	cmovbl	%r9d, %edi
	cmpb	$6, %dil
	jb	.LBB6c6885dc_6
	movzbl	%cl, %eax
	movzbl	%dil, %edi
	movl	$5, %ecx
	jmp	.LBB6c6885dc_3
	.p2align	4
.LBB6c6885dc_5:
	incq	%rcx
	cmpq	%rcx, %rdi
	je	.LBB6c6885dc_6
.LBB6c6885dc_3:
	cmpq	%rax, %rcx
	jb	.LBB6c6885dc_5
	movl	$3, %r9d
	shlq	%cl, %r9
	shrq	$2, %r9
	cmpq	%r9, %r8
	ja	.LBB6c6885dc_5
	movzbl	%cl, %eax
	jmp	.LBB6c6885dc_19
.LBB6c6885dc_6:
	movzbl	%sil, %esi
	leaq	144(%rsp), %rdi
	xorl	%ecx, %ecx
	xorl	%r8d, %r8d
	callq	hll_sketch.promotion.registers_of_table.c04436f960e64b83
	cmpb	$0, 144(%rsp)
	je	.LBB6c6885dc_7
	movzbl	145(%rsp), %eax
.LBB6c6885dc_16:
	movb	$1, (%rbx)
	movb	%al, 1(%rbx)
	xorps	%xmm0, %xmm0
	movups	%xmm0, 8(%rbx)
	movups	%xmm0, 24(%rbx)
	movups	%xmm0, 40(%rbx)
	movups	%xmm0, 56(%rbx)
	movups	%xmm0, 72(%rbx)
	jmp	.LBB6c6885dc_17
.LBB6c6885dc_20:
	movzbl	280(%rsp), %eax
	movups	264(%rsp), %xmm0
	movups	284(%rsp), %xmm1
	movups	300(%rsp), %xmm2
	movaps	%xmm0, 80(%rsp)
	movl	%eax, 96(%rsp)
	movups	%xmm1, 100(%rsp)
	movups	%xmm2, 116(%rsp)
	leaq	80(%rsp), %rdi
	movq	%r14, %rsi
	callq	hll_coupons.hash_set.HashSet.update_each.8a2f8b2564a2651f
	movq	80(%rsp), %rdi
	movq	88(%rsp), %rdx
	movzbl	96(%rsp), %eax
	movl	100(%rsp), %ecx
	movups	104(%rsp), %xmm0
	movaps	%xmm0, 48(%rsp)
	movups	116(%rsp), %xmm0
	movups	%xmm0, 60(%rsp)
	movl	$0, 16(%rsp)
	movl	$0, 19(%rsp)
	movl	$0, 8(%rsp)
	movl	$0, 11(%rsp)
	movl	$1, %r10d
	xorl	%esi, %esi
	movb	$2, %r8b
	xorl	%r9d, %r9d
	jmp	.LBB6c6885dc_23
.LBB6c6885dc_7:
	movq	152(%rsp), %rcx
	movq	160(%rsp), %r15
	movq	168(%rsp), %rax
	movl	204(%rsp), %r9d
	movzbl	208(%rsp), %r8d
	movzbl	216(%rsp), %esi
	movabsq	$-1099511627776, %rdi
	movabsq	$-4294967296, %rdx
	movaps	176(%rsp), %xmm0
	movaps	%xmm0, 224(%rsp)
	movups	188(%rsp), %xmm0
	movups	%xmm0, 236(%rsp)
	movl	209(%rsp), %r10d
	movl	%r10d, 32(%rsp)
	movl	212(%rsp), %r10d
	movl	%r10d, 35(%rsp)
	movl	220(%rsp), %r10d
	movl	%r10d, 27(%rsp)
	movl	217(%rsp), %r10d
	movl	%r10d, 24(%rsp)
	cmpb	$0, 16(%r14)
	je	.LBB6c6885dc_8
	movq	32(%r14), %r11
	movq	24(%r14), %r14
	jmp	.LBB6c6885dc_10
.LBB6c6885dc_8:
	addq	$20, %r14
	movl	$8, %r11d
.LBB6c6885dc_10:
	andq	%rcx, %rdi
	movq	%r15, 40(%rsp)
	andq	%r15, %rdx
	movq	$-1, %r13
	shlq	%cl, %r13
	notq	%r13
	movabsq	$1095216660480, %r12
	andq	%rcx, %r12
	.p2align	4
.LBB6c6885dc_11:
	testq	%r11, %r11
	je	.LBB6c6885dc_22
	decq	%r11
	movl	(%r14), %ebp
	addq	$4, %r14
	testq	%rbp, %rbp
	je	.LBB6c6885dc_11
	movl	%r13d, %r15d
	andl	%ebp, %r15d
	andl	$67108863, %r15d
	movzbl	(%rax,%r15), %r10d
	shrl	$26, %ebp
	cmpb	%bpl, %r10b
	jae	.LBB6c6885dc_11
	movabsq	$4294967296, %rsi
	cmpq	%rsi, %r12
	sete	%sil
	testb	%r10b, %r10b
	sete	%dil
	andb	%sil, %dil
	movzbl	%dil, %esi
	movq	40(%rsp), %rdi
	subl	%esi, %edi
	movq	%rdi, 40(%rsp)
	movb	%bpl, (%rax,%r15)
	leaq	240(%rsp), %rsi
	movl	$0, 8(%rsi)
	movq	$0, (%rsi)
	movl	$0, 35(%rsp)
	movl	$0, 32(%rsp)
	movl	$0, 24(%rsp)
	movl	$0, 27(%rsp)
	movb	$1, %sil
	xorl	%edi, %edi
	xorl	%r9d, %r9d
	xorl	%r8d, %r8d
	jmp	.LBB6c6885dc_11
.LBB6c6885dc_22:
	movabsq	$1099511627775, %r10
	andq	%r10, %rcx
	orq	%rcx, %rdi
	movl	40(%rsp), %ecx
	orq	%rcx, %rdx
	movq	%rax, %rcx
	shrq	$32, %rcx
	movups	236(%rsp), %xmm0
	movups	%xmm0, 60(%rsp)
	movaps	224(%rsp), %xmm0
	movaps	%xmm0, 48(%rsp)
	movl	32(%rsp), %r10d
	movl	35(%rsp), %r11d
	movl	%r10d, 16(%rsp)
	movl	%r11d, 19(%rsp)
	movl	24(%rsp), %r10d
	movl	27(%rsp), %r11d
	movl	%r10d, 8(%rsp)
	movl	%r11d, 11(%rsp)
	movl	$4, %r10d
.LBB6c6885dc_23:
	movw	$0, (%rbx)
	movq	%r10, 8(%rbx)
	movq	%rdi, 16(%rbx)
	movq	%rdx, 24(%rbx)
	movl	%eax, 32(%rbx)
	movl	%ecx, 36(%rbx)
	movaps	48(%rsp), %xmm0
	movups	%xmm0, 40(%rbx)
	movups	60(%rsp), %xmm0
	movups	%xmm0, 52(%rbx)
	movl	%r9d, 68(%rbx)
	movb	%r8b, 72(%rbx)
	movl	16(%rsp), %eax
	movl	19(%rsp), %ecx
	movl	%eax, 73(%rbx)
	movl	%ecx, 76(%rbx)
	movb	%sil, 80(%rbx)
	movl	8(%rsp), %eax
	movl	11(%rsp), %ecx
	movl	%eax, 81(%rbx)
	movl	%ecx, 84(%rbx)
.LBB6c6885dc_17:
	movq	$0, 88(%rbx)
	addq	$328, %rsp
	popq	%rbx
	popq	%r12
	popq	%r13
	popq	%r14
	popq	%r15
	popq	%rbp
	retq
.Lfunc_end6c6885dc:
	.size	hll_sketch.promotion.mode_of_both.8a2f8b2564a2651f, .Lfunc_end6c6885dc-hll_sketch.promotion.mode_of_both.8a2f8b2564a2651f

	.section	.text.hll_sketch.union.HllUnion.merge_table.8a2f8b2564a2651f,"ax",@progbits
	.p2align	4
	.type	hll_sketch.union.HllUnion.merge_table.8a2f8b2564a2651f,@function
hll_sketch.union.HllUnion.merge_table.8a2f8b2564a2651f:
	pushq	%rbp
	pushq	%r15
	pushq	%r14
	pushq	%r13
	pushq	%r12
	pushq	%rbx
	subq	$136, %rsp
	leaq	8(%rdi), %rbx
	movzbl	16(%rdi), %eax
	leaq	.LJTIfede18fc_0(%rip), %rcx
	movslq	(%rcx,%rax,4), %rax
	addq	%rcx, %rax
	jmpq	*%rax
.LBBfede18fc_11:
	cmpq	$0, 32(%rdi)
	jne	.LBBfede18fc_4
	jmp	.LBBfede18fc_12
.LBBfede18fc_7:
	cmpb	$1, 28(%rdi)
	jne	.LBBfede18fc_9
	movl	32(%rdi), %eax
	jmp	.LBBfede18fc_3
.LBBfede18fc_1:
	cmpb	$0, 25(%rdi)
	jne	.LBBfede18fc_4
	movl	28(%rdi), %eax
.LBBfede18fc_3:
	movzbl	24(%rdi), %ecx
	movl	$1, %r8d
	shlq	%cl, %r8
	cmpq	%rax, %r8
	je	.LBBfede18fc_12
	jmp	.LBBfede18fc_4
.LBBfede18fc_6:
	movq	40(%rdi), %rax
	movq	48(%rdi), %rcx
	leaq	(%rcx,%rcx,2), %rcx
	jmp	.LBBfede18fc_10
.LBBfede18fc_9:
	movq	40(%rdi), %rax
	movq	48(%rdi), %rcx
.LBBfede18fc_10:
	movq	%rdi, %r14
	movq	%rax, %rdi
	movq	%rsi, %r15
	movq	%rcx, %rsi
	movq	%rdx, %r12
	callq	hll_kernels.kernels.all_zero
	movq	%r12, %rdx
	movq	%r15, %rsi
	movq	%r14, %rdi
	testb	%al, %al
	je	.LBBfede18fc_4
.LBBfede18fc_12:
	movzbl	(%rbx), %eax
	cmpb	(%rsi), %al
	jne	.LBBfede18fc_4
	movzbl	8(%rsi), %r12d
	testl	%r12d, %r12d
	je	.LBBfede18fc_22
	cmpl	$1, %r12d
	jne	.LBBfede18fc_53
	movups	16(%rsi), %xmm4
	movzbl	32(%rsi), %ebp
	testb	%bpl, %bpl
	je	.LBBfede18fc_23
	movq	40(%rsi), %r14
	movq	48(%rsi), %r13
	testq	%r13, %r13
	je	.LBBfede18fc_25
	movabsq	$2305843009213693944, %rax
	leaq	8(%rax), %rcx
	movb	$1, %al
	movb	$12, %dl
	cmpq	%rcx, %r13
	jae	.LBBfede18fc_5
	movaps	%xmm4, 32(%rsp)
	movq	%rsi, 24(%rsp)
	movq	%rdi, 16(%rsp)
	leaq	(,%r13,4), %r15
	movl	$4, %esi
	movq	%r15, %rdi
	callq	rattle_alloc@PLT
	movq	%rax, %rcx
	movb	$1, %al
	movq	%rdx, %rbx
	movb	$12, %dl
	testb	$1, %cl
	je	.LBBfede18fc_5
	movq	%rbx, %rax
	subq	%r14, %rax
	cmpq	%r15, %rax
	jae	.LBBfede18fc_26
	xorl	%eax, %eax
	cmpq	$8, %r13
	jb	.LBBfede18fc_21
	movq	%rbx, %rcx
	subq	%r14, %rcx
	cmpq	$32, %rcx
	movq	16(%rsp), %rdi
	movq	24(%rsp), %rsi
	movaps	32(%rsp), %xmm4
	jb	.LBBfede18fc_48
	movabsq	$2305843009213693944, %rax
	andq	%r13, %rax
	leaq	(,%r13,4), %rdx
	movabsq	$9223372036854775776, %rcx
	andq	%rdx, %rcx
	xorl	%edx, %edx
.LBBfede18fc_46:
	movups	(%r14,%rdx), %xmm0
	movups	16(%r14,%rdx), %xmm1
	movups	%xmm0, (%rbx,%rdx)
	movups	%xmm1, 16(%rbx,%rdx)
	addq	$32, %rdx
	cmpq	%rdx, %rcx
	jne	.LBBfede18fc_46
	cmpq	%rax, %r13
	je	.LBBfede18fc_42
	jmp	.LBBfede18fc_48
.LBBfede18fc_4:
	movq	%rbx, %rdi
	movq	%rdx, %rsi
	callq	hll_sketch.sketch.HllSketch.add_table.8a2f8b2564a2651f
.LBBfede18fc_5:
	addq	$136, %rsp
	popq	%rbx
	popq	%r12
	popq	%r13
	popq	%r14
	popq	%r15
	popq	%rbp
	retq
.LBBfede18fc_22:
	movups	16(%rsi), %xmm4
	movzbl	32(%rsi), %ebp
	testb	%bpl, %bpl
	je	.LBBfede18fc_23
	movq	40(%rsi), %r14
	movq	48(%rsi), %r13
	testq	%r13, %r13
	je	.LBBfede18fc_25
	movabsq	$2305843009213693944, %rax
	leaq	8(%rax), %rcx
	movb	$1, %al
	movb	$12, %dl
	cmpq	%rcx, %r13
	jae	.LBBfede18fc_5
	movaps	%xmm4, 32(%rsp)
	movq	%rsi, 24(%rsp)
	movq	%rdi, 16(%rsp)
	leaq	(,%r13,4), %r15
	movl	$4, %esi
	movq	%r15, %rdi
	callq	rattle_alloc@PLT
	movq	%rax, %rcx
	movb	$1, %al
	movq	%rdx, %rbx
	movb	$12, %dl
	testb	$1, %cl
	je	.LBBfede18fc_5
	movq	%rbx, %rax
	subq	%r14, %rax
	cmpq	%r15, %rax
	jae	.LBBfede18fc_26
	xorl	%eax, %eax
	cmpq	$8, %r13
	jb	.LBBfede18fc_32
	movq	%rbx, %rcx
	subq	%r14, %rcx
	cmpq	$32, %rcx
	movq	16(%rsp), %rdi
	movq	24(%rsp), %rsi
	movaps	32(%rsp), %xmm4
	jb	.LBBfede18fc_33
	movabsq	$2305843009213693944, %rax
	andq	%r13, %rax
	leaq	(,%r13,4), %rdx
	movabsq	$9223372036854775776, %rcx
	andq	%rdx, %rcx
	xorl	%edx, %edx
.LBBfede18fc_40:
	movups	(%r14,%rdx), %xmm0
	movups	16(%r14,%rdx), %xmm1
	movups	%xmm0, (%rbx,%rdx)
	movups	%xmm1, 16(%rbx,%rdx)
	addq	$32, %rdx
	cmpq	%rdx, %rcx
	jne	.LBBfede18fc_40
	cmpq	%rax, %r13
	jne	.LBBfede18fc_33
.LBBfede18fc_42:
	xorl	%r9d, %r9d
	jmp	.LBBfede18fc_43
.LBBfede18fc_23:
	movl	36(%rsi), %r9d
	movq	40(%rsi), %rbx
	movq	48(%rsi), %r13
	movq	56(%rsi), %rax
	movl	64(%rsi), %ecx
	xorl	%ebp, %ebp
	jmp	.LBBfede18fc_27
.LBBfede18fc_25:
	movaps	%xmm4, 32(%rsp)
	movq	%rsi, 24(%rsp)
	movq	%rdi, 16(%rsp)
	leaq	12(%rsp), %rbx
	xorl	%r15d, %r15d
.LBBfede18fc_26:
	movq	%rbx, %rdi
	movq	%r14, %rsi
	movq	%r15, %rdx
	callq	memmove@PLT
	movq	%r13, %rax
	xorl	%ecx, %ecx
	movq	16(%rsp), %rdi
	movq	24(%rsp), %rsi
	movaps	32(%rsp), %xmm4
	xorl	%r9d, %r9d
.LBBfede18fc_27:
	movzbl	%bpl, %edx
	movzbl	(%rsi), %esi
	movzbl	16(%rdi), %r8d
	movups	88(%rdi), %xmm0
	movups	%xmm0, 120(%rsp)
	movups	24(%rdi), %xmm0
	movups	40(%rdi), %xmm1
	movups	56(%rdi), %xmm2
	movups	72(%rdi), %xmm3
	movups	%xmm3, 104(%rsp)
	movups	%xmm2, 88(%rsp)
	movups	%xmm1, 72(%rsp)
	movups	%xmm0, 56(%rsp)
	movb	%sil, 8(%rdi)
	movq	%r12, 16(%rdi)
	movups	%xmm4, 24(%rdi)
	movl	%edx, 40(%rdi)
	movl	%r9d, 44(%rdi)
	movq	%rbx, 48(%rdi)
	movq	%r13, 56(%rdi)
	movq	%rax, 64(%rdi)
	movl	%ecx, 72(%rdi)
	movl	$0, 76(%rdi)
	movb	$2, 80(%rdi)
	xorps	%xmm0, %xmm0
	movups	%xmm0, 81(%rdi)
	movq	$0, 96(%rdi)
	movq	%r8, 48(%rsp)
	leaq	48(%rsp), %rdi
	callq	hll_sketch.mode.Mode.drop.309f015d8caa795c
	xorl	%edx, %edx
	xorl	%eax, %eax
	jmp	.LBBfede18fc_5
.LBBfede18fc_32:
	movq	16(%rsp), %rdi
	movq	24(%rsp), %rsi
	movaps	32(%rsp), %xmm4
.LBBfede18fc_33:
	movq	%r13, %rdx
	movq	%rax, %rcx
	andq	$3, %rdx
	je	.LBBfede18fc_36
	movq	%rax, %rcx
.LBBfede18fc_35:
	movl	(%r14,%rcx,4), %r8d
	movl	%r8d, (%rbx,%rcx,4)
	incq	%rcx
	decq	%rdx
	jne	.LBBfede18fc_35
.LBBfede18fc_36:
	subq	%r13, %rax
	xorl	%r9d, %r9d
	cmpq	$-4, %rax
	ja	.LBBfede18fc_43
.LBBfede18fc_37:
	movl	(%r14,%rcx,4), %eax
	movl	%eax, (%rbx,%rcx,4)
	movl	4(%r14,%rcx,4), %eax
	movl	%eax, 4(%rbx,%rcx,4)
	movl	8(%r14,%rcx,4), %eax
	movl	%eax, 8(%rbx,%rcx,4)
	movl	12(%r14,%rcx,4), %eax
	movl	%eax, 12(%rbx,%rcx,4)
	addq	$4, %rcx
	cmpq	%rcx, %r13
	jne	.LBBfede18fc_37
	jmp	.LBBfede18fc_43
.LBBfede18fc_21:
	movq	16(%rsp), %rdi
	movq	24(%rsp), %rsi
	movaps	32(%rsp), %xmm4
.LBBfede18fc_48:
	movq	%r13, %rdx
	movq	%rax, %rcx
	andq	$3, %rdx
	je	.LBBfede18fc_51
	movq	%rax, %rcx
.LBBfede18fc_50:
	movl	(%r14,%rcx,4), %r8d
	movl	%r8d, (%rbx,%rcx,4)
	incq	%rcx
	decq	%rdx
	jne	.LBBfede18fc_50
.LBBfede18fc_51:
	subq	%r13, %rax
	xorl	%r9d, %r9d
	cmpq	$-4, %rax
	ja	.LBBfede18fc_43
.LBBfede18fc_52:
	movl	(%r14,%rcx,4), %eax
	movl	%eax, (%rbx,%rcx,4)
	movl	4(%r14,%rcx,4), %eax
	movl	%eax, 4(%rbx,%rcx,4)
	movl	8(%r14,%rcx,4), %eax
	movl	%eax, 8(%rbx,%rcx,4)
	movl	12(%r14,%rcx,4), %eax
	movl	%eax, 12(%rbx,%rcx,4)
	addq	$4, %rcx
	cmpq	%rcx, %r13
	jne	.LBBfede18fc_52
.LBBfede18fc_43:
	movq	%r13, %rax
	xorl	%ecx, %ecx
	jmp	.LBBfede18fc_27
.LBBfede18fc_53:
	ud2
.Lfunc_endfede18fc:
	.size	hll_sketch.union.HllUnion.merge_table.8a2f8b2564a2651f, .Lfunc_endfede18fc-hll_sketch.union.HllUnion.merge_table.8a2f8b2564a2651f
	.section	.rodata.hll_sketch.union.HllUnion.merge_table.8a2f8b2564a2651f,"a",@progbits
	.p2align	2, 0x0
.LJTIfede18fc_0:
	.long	.LBBfede18fc_11-.LJTIfede18fc_0
	.long	.LBBfede18fc_11-.LJTIfede18fc_0
	.long	.LBBfede18fc_1-.LJTIfede18fc_0
	.long	.LBBfede18fc_6-.LJTIfede18fc_0
	.long	.LBBfede18fc_7-.LJTIfede18fc_0

	.section	.text.hll_sketch.register_folds.fold_of_registers.64a1999876867b1f,"ax",@progbits
	.p2align	4
	.type	hll_sketch.register_folds.fold_of_registers.64a1999876867b1f,@function
hll_sketch.register_folds.fold_of_registers.64a1999876867b1f:
	pushq	%rbp
	pushq	%r15
	pushq	%r14
	pushq	%r13
	pushq	%r12
	pushq	%rbx
	subq	$40, %rsp
	movl	%esi, %ebp
	movq	%rdi, %rbx
	movl	$1, %r14d
	movl	%ebp, %ecx
	shlq	%cl, %r14
	cmpb	$63, %bpl
	je	.LBB1d7d7387_12
	movq	%rdx, %r15
	movl	$1, %esi
	movq	%r14, %rdi
	callq	rattle_alloc@PLT
	testb	$1, %al
	je	.LBB1d7d7387_12
	testb	%bpl, %bpl
	movq	%rdx, %r13
	movq	%rbx, 16(%rsp)
	movq	%r14, 8(%rsp)
	je	.LBB1d7d7387_3
	leaq	-1(%r14), %rbx
	movq	%r13, %rdi
	xorl	%esi, %esi
	movq	%rbx, %rdx
	callq	memset@PLT
	movq	%r13, %rdx
	jmp	.LBB1d7d7387_5
.LBB1d7d7387_12:
	movw	$3073, (%rbx)
	xorps	%xmm0, %xmm0
	movups	%xmm0, 8(%rbx)
	movups	%xmm0, 24(%rbx)
	movups	%xmm0, 40(%rbx)
	movups	%xmm0, 56(%rbx)
	movq	$0, 72(%rbx)
	jmp	.LBB1d7d7387_13
.LBB1d7d7387_3:
	xorl	%ebx, %ebx
.LBB1d7d7387_5:
	movb	$0, (%rdx,%rbx)
	leaq	1(%rbx), %r14
	cmpb	$14, %bpl
	setb	%cl
	movzbl	(%r15), %eax
	cmpb	$15, %al
	setae	%dl
	andb	%cl, %dl
	cmpb	$1, %dl
	movl	%ebp, 4(%rsp)
	jne	.LBB1d7d7387_9
	cmpb	$1, 32(%r15)
	jne	.LBB1d7d7387_9
	movq	40(%r15), %rcx
	movzbl	8(%rcx), %ecx
	movl	$4, %edx
	shlq	%cl, %rdx
	cmpq	$8193, %rdx
	jb	.LBB1d7d7387_9
	movzbl	%bpl, %edx
	movq	%r13, %rdi
	movq	%r14, %rsi
	movq	%r15, %rcx
	callq	hll_registers.folds.max_by_stages.8fbc67663473d8ac
	movq	%r14, %rsi
	movq	%r13, %rdx
	jmp	.LBB1d7d7387_11
.LBB1d7d7387_9:
	subb	%bpl, %al
	movzbl	%al, %eax
	movq	%rax, 32(%rsp)
	leaq	32(%r15), %rax
	movq	%rax, 24(%rsp)
	incl	%ebx
	movl	$1, %r12d
	movq	%rbx, %rbp
	xorl	%ebx, %ebx
	.p2align	4
.LBB1d7d7387_10:
	movq	8(%r15), %rcx
	movzbl	1(%r15), %r9d
	movq	%r13, %rdi
	movq	%r14, %rsi
	movl	%ebx, %edx
	movq	24(%rsp), %r8
	callq	hll_registers.exception_map.max_with_registers.309f015d8caa795c
	movq	%r14, %rsi
	movq	%r13, %rdx
	movq	%r12, %rax
	movq	32(%rsp), %rcx
	shrq	%cl, %rax
	incq	%r12
	addl	%ebp, %ebx
	testq	%rax, %rax
	je	.LBB1d7d7387_10
.LBB1d7d7387_11:
	movq	16(%rsp), %rax
	movw	$0, (%rax)
	movl	4(%rsp), %ecx
	movb	%cl, 8(%rax)
	movq	$0, 9(%rax)
	movq	$0, 16(%rax)
	movq	%rdx, 24(%rax)
	movq	%rsi, 32(%rax)
	movq	8(%rsp), %rcx
	movq	%rcx, 40(%rax)
	xorps	%xmm0, %xmm0
	movups	%xmm0, 48(%rax)
	movq	$0, 64(%rax)
	movb	$1, 72(%rax)
	movl	$0, 73(%rax)
	movl	$0, 76(%rax)
.LBB1d7d7387_13:
	addq	$40, %rsp
	popq	%rbx
	popq	%r12
	popq	%r13
	popq	%r14
	popq	%r15
	popq	%rbp
	retq
.Lfunc_end1d7d7387:
	.size	hll_sketch.register_folds.fold_of_registers.64a1999876867b1f, .Lfunc_end1d7d7387-hll_sketch.register_folds.fold_of_registers.64a1999876867b1f

	.section	.text.hll_sketch.folding.fold_of.8a2f8b2564a2651f,"ax",@progbits
	.p2align	4
	.type	hll_sketch.folding.fold_of.8a2f8b2564a2651f,@function
hll_sketch.folding.fold_of.8a2f8b2564a2651f:
	pushq	%rbp
	pushq	%r15
	pushq	%r14
	pushq	%r13
	pushq	%r12
	pushq	%rbx
	subq	$120, %rsp
	movq	%rsi, %r14
	movq	%rdi, %rbx
	xorps	%xmm0, %xmm0
	movaps	%xmm0, 80(%rsp)
	movaps	%xmm0, 64(%rsp)
	movaps	%xmm0, 48(%rsp)
	movaps	%xmm0, 32(%rsp)
	movaps	%xmm0, 16(%rsp)
	movzbl	(%rsi), %ecx
	leaq	8(%rsi), %rax
	leaq	.LJTI7dc03b29_0(%rip), %rsi
	movslq	(%rsi,%rcx,4), %rcx
	addq	%rsi, %rcx
	jmpq	*%rcx
.LBB7dc03b29_1:
	movzbl	%dl, %esi
	leaq	16(%rsp), %rdi
	movq	%rax, %rdx
	xorl	%ecx, %ecx
	xorl	%r8d, %r8d
	callq	hll_sketch.promotion.registers_of_table.c04436f960e64b83
	jmp	.LBB7dc03b29_13
.LBB7dc03b29_4:
	movl	$1, %r15d
	movl	%edx, %ecx
	shlq	%cl, %r15
	cmpb	$63, %dl
	je	.LBB7dc03b29_12
	movl	$1, %esi
	movq	%r15, %rdi
	movl	%edx, 12(%rsp)
	callq	rattle_alloc@PLT
	movl	12(%rsp), %ecx
	testb	$1, %al
	je	.LBB7dc03b29_12
	testb	%cl, %cl
	movq	%rdx, %rbp
	movq	%r15, 104(%rsp)
	je	.LBB7dc03b29_7
	leaq	-1(%r15), %r13
	movq	%rbp, %rdi
	xorl	%esi, %esi
	movq	%r13, %rdx
	callq	memset@PLT
	movq	%rbp, %rdx
	movl	12(%rsp), %ecx
	jmp	.LBB7dc03b29_9
.LBB7dc03b29_2:
	movzbl	%dl, %esi
	leaq	16(%rsp), %rdi
	movq	%rax, %rdx
	callq	hll_sketch.register_folds.fold_of_registers.64a1999876867b1f
	jmp	.LBB7dc03b29_13
.LBB7dc03b29_3:
	movzbl	%dl, %esi
	leaq	16(%rsp), %rdi
	movq	%rax, %rdx
	callq	hll_sketch.register_folds.fold_of_registers.dd8a39ea15bd038f
	jmp	.LBB7dc03b29_13
.LBB7dc03b29_12:
	movw	$3073, 16(%rsp)
	xorps	%xmm0, %xmm0
	movups	%xmm0, 24(%rsp)
	movups	%xmm0, 40(%rsp)
	movups	%xmm0, 56(%rsp)
	movups	%xmm0, 72(%rsp)
	movq	$0, 88(%rsp)
	jmp	.LBB7dc03b29_13
.LBB7dc03b29_7:
	xorl	%r13d, %r13d
.LBB7dc03b29_9:
	movb	$0, (%rdx,%r13)
	incq	%r13
	movzbl	8(%r14), %eax
	subb	%cl, %al
	movzbl	%al, %eax
	movq	%rax, 112(%rsp)
	movl	$1, %r15d
	xorl	%r12d, %r12d
	.p2align	4
.LBB7dc03b29_10:
	movl	%r12d, %edx
	addq	24(%r14), %rdx
	movq	%rbp, %rdi
	movq	%r13, %rsi
	movq	%r13, %rcx
	callq	hll_kernels.kernels.max_into
	movq	%r15, %rax
	movq	112(%rsp), %rcx
	shrq	%cl, %rax
	incq	%r15
	addq	%r13, %r12
	testq	%rax, %rax
	je	.LBB7dc03b29_10
	movw	$0, 16(%rsp)
	movl	12(%rsp), %eax
	movb	%al, 24(%rsp)
	movq	$0, 25(%rsp)
	movq	$0, 32(%rsp)
	movq	%rbp, 40(%rsp)
	movq	%r13, 48(%rsp)
	movq	104(%rsp), %rax
	movq	%rax, 56(%rsp)
	xorps	%xmm0, %xmm0
	movaps	%xmm0, 64(%rsp)
	movq	$0, 80(%rsp)
	movb	$1, 88(%rsp)
	movl	$0, 89(%rsp)
	movl	$0, 92(%rsp)
.LBB7dc03b29_13:
	movzwl	16(%rsp), %eax
	movw	%ax, (%rbx)
	movq	88(%rsp), %rax
	movq	%rax, 72(%rbx)
	movzbl	24(%rsp), %eax
	movq	25(%rsp), %rcx
	movl	33(%rsp), %edx
	movzwl	37(%rsp), %esi
	movzbl	39(%rsp), %edi
	movq	40(%rsp), %r8
	movq	48(%rsp), %r9
	movups	56(%rsp), %xmm0
	movq	72(%rsp), %r10
	movq	80(%rsp), %r11
	movb	%al, 8(%rbx)
	movq	%rcx, 9(%rbx)
	movl	%edx, 17(%rbx)
	movw	%si, 21(%rbx)
	movb	%dil, 23(%rbx)
	movq	%r8, 24(%rbx)
	movq	%r9, 32(%rbx)
	movups	%xmm0, 40(%rbx)
	movq	%r10, 56(%rbx)
	movq	%r11, 64(%rbx)
	addq	$120, %rsp
	popq	%rbx
	popq	%r12
	popq	%r13
	popq	%r14
	popq	%r15
	popq	%rbp
	retq
.Lfunc_end7dc03b29:
	.size	hll_sketch.folding.fold_of.8a2f8b2564a2651f, .Lfunc_end7dc03b29-hll_sketch.folding.fold_of.8a2f8b2564a2651f
	.section	.rodata.hll_sketch.folding.fold_of.8a2f8b2564a2651f,"a",@progbits
	.p2align	2, 0x0
.LJTI7dc03b29_0:
	.long	.LBB7dc03b29_1-.LJTI7dc03b29_0
	.long	.LBB7dc03b29_1-.LJTI7dc03b29_0
	.long	.LBB7dc03b29_2-.LJTI7dc03b29_0
	.long	.LBB7dc03b29_3-.LJTI7dc03b29_0
	.long	.LBB7dc03b29_4-.LJTI7dc03b29_0

	.section	.rodata.cst16,"aM",@progbits,16
	.p2align	4, 0x0
.LCPI1b6b6fbb_0:
	.byte	0
	.byte	1
	.byte	1
	.byte	2
	.byte	3
	.byte	4
	.byte	4
	.byte	5
	.byte	6
	.byte	7
	.byte	7
	.byte	8
	.byte	9
	.byte	10
	.byte	10
	.byte	11
.LCPI1b6b6fbb_1:
	.byte	4
	.byte	5
	.byte	5
	.byte	6
	.byte	7
	.byte	8
	.byte	8
	.byte	9
	.byte	10
	.byte	11
	.byte	11
	.byte	12
	.byte	13
	.byte	14
	.byte	14
	.byte	15
.LCPI1b6b6fbb_2:
	.short	63
	.short	63
	.short	63
	.short	63
	.short	63
	.short	63
	.short	63
	.short	63
.LCPI1b6b6fbb_3:
	.short	16128
	.short	16128
	.short	16128
	.short	16128
	.short	16128
	.short	16128
	.short	16128
	.short	16128
.LCPI1b6b6fbb_4:
	.byte	255
	.byte	0
	.byte	0
	.byte	0
	.byte	255
	.byte	0
	.byte	0
	.byte	0
	.byte	255
	.byte	0
	.byte	0
	.byte	0
	.byte	255
	.byte	0
	.byte	0
	.byte	0
.LCPI1b6b6fbb_5:
	.zero	16,63
.LCPI1b6b6fbb_6:
	.byte	63
	.byte	63
	.byte	63
	.byte	63
	.byte	63
	.byte	63
	.byte	63
	.byte	63
	.zero	1
	.zero	1
	.zero	1
	.zero	1
	.zero	1
	.zero	1
	.zero	1
	.zero	1
.LCPI1b6b6fbb_7:
	.byte	4
	.byte	12
	.byte	5
	.byte	13
	.byte	6
	.byte	14
	.byte	7
	.byte	15
	.zero	1
	.zero	1
	.zero	1
	.zero	1
	.zero	1
	.zero	1
	.zero	1
	.zero	1
.LCPI1b6b6fbb_8:
	.byte	63
	.byte	63
	.zero	1
	.zero	1
	.zero	1
	.zero	1
	.zero	1
	.zero	1
	.zero	1
	.zero	1
	.zero	1
	.zero	1
	.zero	1
	.zero	1
	.zero	1
	.zero	1
.LCPI1b6b6fbb_9:
	.byte	4
	.byte	12
	.byte	5
	.byte	13
	.byte	6
	.byte	14
	.byte	7
	.byte	15
	.byte	0
	.byte	0
	.byte	0
	.byte	0
	.byte	0
	.byte	0
	.byte	0
	.byte	0
	.section	.text.hll_sketch.register_folds.fold_of_registers.dd8a39ea15bd038f,"ax",@progbits
	.p2align	4
	.type	hll_sketch.register_folds.fold_of_registers.dd8a39ea15bd038f,@function
hll_sketch.register_folds.fold_of_registers.dd8a39ea15bd038f:
	pushq	%rbp
	pushq	%r15
	pushq	%r14
	pushq	%r13
	pushq	%r12
	pushq	%rbx
	subq	$152, %rsp
	movl	%esi, %ebp
	movq	%rdi, %rbx
	movl	$1, %r14d
	movl	%ebp, %ecx
	shlq	%cl, %r14
	cmpb	$63, %bpl
	je	.LBB1b6b6fbb_4
	movq	%rdx, %r15
	movl	$1, %esi
	movq	%r14, %rdi
	callq	rattle_alloc@PLT
	movq	%rdx, 8(%rsp)
	testb	$1, %al
	je	.LBB1b6b6fbb_4
	movq	%r14, 32(%rsp)
	movl	%ebp, %eax
	xorl	%ebp, %ebp
	movl	%eax, 4(%rsp)
	testb	%al, %al
	movq	%rbx, 80(%rsp)
	je	.LBB1b6b6fbb_5
	movq	32(%rsp), %rax
	leaq	-1(%rax), %r12
	movq	8(%rsp), %r14
	movq	%r14, %rdi
	xorl	%esi, %esi
	movq	%r12, %rdx
	callq	memset@PLT
	jmp	.LBB1b6b6fbb_6
.LBB1b6b6fbb_4:
	movw	$3073, (%rbx)
	pxor	%xmm0, %xmm0
	movdqu	%xmm0, 8(%rbx)
	movdqu	%xmm0, 24(%rbx)
	movdqu	%xmm0, 40(%rbx)
	movdqu	%xmm0, 56(%rbx)
	movq	$0, 72(%rbx)
	jmp	.LBB1b6b6fbb_29
.LBB1b6b6fbb_5:
	xorl	%r12d, %r12d
	movq	8(%rsp), %r14
.LBB1b6b6fbb_6:
	movb	$0, (%r14,%r12)
	leaq	1(%r12), %r13
	movzbl	(%r15), %eax
	subb	4(%rsp), %al
	movzbl	%al, %eax
	movq	%rax, 144(%rsp)
	movq	%r13, %rax
	shrq	$2, %rax
	leaq	(%rax,%rax,2), %rax
	movq	%r13, %rcx
	shrq	$6, %rcx
	movq	%rcx, 136(%rsp)
	shlq	$4, %rcx
	leaq	(%rcx,%rcx,2), %rdx
	movq	%rdx, 120(%rsp)
	subq	%rdx, %rax
	movq	%r13, %rsi
	andq	$-64, %rsi
	leaq	(%r14,%rsi), %r10
	movabsq	$-6148914691236517205, %rdx
	movq	%rax, 16(%rsp)
	mulq	%rdx
	shrq	%rdx
	leaq	-1(%rdx), %rax
	leaq	(%r14,%rsi), %rdi
	incq	%rdi
	leaq	(%r14,%rsi), %r8
	addq	$2, %r8
	addq	%r14, %rsi
	addq	$3, %rsi
	leaq	(%r10,%rdx,4), %r9
	addq	$-4, %r9
	cmpq	%r10, %r9
	setb	%r9b
	shrq	$62, %rax
	setne	%al
	leaq	(%r10,%rdx,4), %r11
	addq	$-3, %r11
	cmpq	%rdi, %r11
	setb	%dil
	orb	%r9b, %dil
	leaq	(%r10,%rdx,4), %r9
	addq	$-2, %r9
	cmpq	%r8, %r9
	setb	%r8b
	leaq	(%r10,%rdx,4), %r9
	decq	%r9
	cmpq	%rsi, %r9
	setb	%sil
	orb	%al, %dil
	orb	%r8b, %sil
	orb	%dil, %sil
	movb	%sil, 3(%rsp)
	movq	%rdx, %rax
	andq	$-16, %rax
	movq	%rax, 72(%rsp)
	movabsq	$9223372036854775792, %rax
	orq	$8, %rax
	andq	%rdx, %rax
	movq	%rax, 104(%rsp)
	leaq	(%rcx,%rcx,2), %rax
	addq	$47, %rax
	movq	%rax, 88(%rsp)
	leaq	23(%rcx,%rcx,2), %rax
	movq	%rax, 96(%rsp)
	leaq	2(%rcx,%rcx,2), %rax
	movq	%rax, 128(%rsp)
	leal	1(%r12), %eax
	movl	%eax, 28(%rsp)
	xorl	%edi, %edi
	movq	%r15, 56(%rsp)
	movq	%r12, 48(%rsp)
	movq	%r13, 40(%rsp)
	jmp	.LBB1b6b6fbb_8
	.p2align	4
.LBB1b6b6fbb_7:
	incq	%rdi
	movq	%rdi, %rax
	movq	144(%rsp), %rcx
	shrq	%cl, %rax
	addl	28(%rsp), %ebp
	testq	%rax, %rax
	jne	.LBB1b6b6fbb_28
.LBB1b6b6fbb_8:
	movl	%ebp, %eax
	shrl	$2, %eax
	movq	16(%r15), %r8
	leaq	(%rax,%rax,2), %r11
	cmpq	$63, %r12
	jb	.LBB1b6b6fbb_11
	leaq	(%r8,%r11), %rsi
	addq	$32, %rsi
	movq	%r14, %r9
	movq	136(%rsp), %rbx
	.p2align	4
.LBB1b6b6fbb_10:
	movdqa	.LCPI1b6b6fbb_0(%rip), %xmm0
	movdqu	-32(%rsi), %xmm1
	movdqu	-20(%rsi), %xmm2
	movdqu	-8(%rsi), %xmm4
	movdqu	(%rsi), %xmm5
	pshufb	%xmm0, %xmm1
	pshufb	%xmm0, %xmm2
	pshufb	%xmm0, %xmm4
	pshufb	.LCPI1b6b6fbb_1(%rip), %xmm5
	movdqa	%xmm2, %xmm0
	psllw	$4, %xmm0
	pblendw	$170, %xmm2, %xmm0
	movdqa	%xmm1, %xmm3
	psllw	$4, %xmm3
	pblendw	$170, %xmm1, %xmm3
	movdqa	%xmm4, %xmm1
	psllw	$4, %xmm1
	pblendw	$170, %xmm4, %xmm1
	movdqa	%xmm5, %xmm2
	psllw	$4, %xmm2
	pblendw	$170, %xmm5, %xmm2
	movdqa	%xmm1, %xmm4
	psrlw	$4, %xmm4
	movdqa	%xmm3, %xmm6
	psrlw	$4, %xmm6
	movdqa	%xmm0, %xmm7
	psrlw	$4, %xmm7
	movdqa	%xmm2, %xmm5
	psrlw	$4, %xmm5
	movdqa	.LCPI1b6b6fbb_2(%rip), %xmm8
	pand	%xmm8, %xmm7
	pand	%xmm8, %xmm6
	pand	%xmm8, %xmm4
	pand	%xmm8, %xmm5
	psrlw	$2, %xmm1
	psrlw	$2, %xmm3
	psrlw	$2, %xmm0
	psrlw	$2, %xmm2
	movdqa	.LCPI1b6b6fbb_3(%rip), %xmm8
	pand	%xmm8, %xmm0
	por	%xmm7, %xmm0
	pand	%xmm8, %xmm3
	por	%xmm6, %xmm3
	pand	%xmm8, %xmm1
	por	%xmm4, %xmm1
	pand	%xmm8, %xmm2
	por	%xmm5, %xmm2
	movdqu	(%r9), %xmm4
	pmaxub	%xmm3, %xmm4
	movdqu	16(%r9), %xmm3
	pmaxub	%xmm0, %xmm3
	movdqu	32(%r9), %xmm0
	pmaxub	%xmm1, %xmm0
	movdqu	48(%r9), %xmm1
	pmaxub	%xmm2, %xmm1
	movdqu	%xmm0, 32(%r9)
	movdqu	%xmm1, 48(%r9)
	movdqu	%xmm4, (%r9)
	movdqu	%xmm3, 16(%r9)
	addq	$48, %rsi
	addq	$64, %r9
	decq	%rbx
	jne	.LBB1b6b6fbb_10
.LBB1b6b6fbb_11:
	cmpq	$3, 16(%rsp)
	jb	.LBB1b6b6fbb_7
	cmpq	$24, 16(%rsp)
	setb	%al
	orb	3(%rsp), %al
	testb	$1, %al
	jne	.LBB1b6b6fbb_13
	movl	%r13d, %eax
	imull	%edi, %eax
	shrl	$2, %eax
	leal	(%rax,%rax,2), %eax
	addq	%r8, %rax
	movq	120(%rsp), %rcx
	addq	%rcx, %rax
	leaq	(%r10,%rdx,4), %rsi
	cmpq	%rsi, %rax
	jae	.LBB1b6b6fbb_17
	movl	%r13d, %eax
	imull	%edi, %eax
	shrl	$2, %eax
	leaq	(%rax,%rax,2), %rax
	leaq	(%rdx,%rdx,2), %rsi
	addq	%rsi, %rax
	addq	%r8, %rcx
	addq	%rcx, %rax
	cmpq	%rax, %r10
	jae	.LBB1b6b6fbb_17
.LBB1b6b6fbb_13:
	xorl	%esi, %esi
.LBB1b6b6fbb_26:
	addq	128(%rsp), %r8
	leaq	(%rsi,%rsi,2), %rax
	addq	%r11, %rax
	addq	%r8, %rax
	.p2align	4
.LBB1b6b6fbb_27:
	movzbl	-2(%rax), %ecx
	movzbl	-1(%rax), %r8d
	movzbl	(%rax), %r9d
	shll	$8, %r8d
	movl	%r9d, %r11d
	shll	$16, %r11d
	orl	%r8d, %r11d
	orl	%ecx, %r8d
	shrl	$6, %r8d
	shrl	$12, %r11d
	shrb	$2, %r9b
	andb	$63, %r11b
	movd	%ecx, %xmm0
	pinsrb	$1, %r8d, %xmm0
	pand	.LCPI1b6b6fbb_8(%rip), %xmm0
	movd	(%r10,%rsi,4), %xmm1
	movzbl	%r11b, %ecx
	pinsrb	$2, %ecx, %xmm0
	movzbl	%r9b, %ecx
	pinsrb	$3, %ecx, %xmm0
	pmaxub	%xmm1, %xmm0
	movd	%xmm0, (%r10,%rsi,4)
	incq	%rsi
	addq	$3, %rax
	cmpq	%rsi, %rdx
	jne	.LBB1b6b6fbb_27
	jmp	.LBB1b6b6fbb_7
.LBB1b6b6fbb_17:
	cmpq	$48, 16(%rsp)
	movq	%r11, 64(%rsp)
	jae	.LBB1b6b6fbb_22
	xorl	%ebx, %ebx
.LBB1b6b6fbb_19:
	movq	96(%rsp), %rax
	movq	%r8, 112(%rsp)
	addq	%r8, %rax
	leaq	(%rbx,%rbx,2), %r12
	addq	%r11, %r12
	addq	%rax, %r12
	movq	104(%rsp), %r8
	.p2align	4
.LBB1b6b6fbb_20:
	movzbl	-23(%r12), %eax
	movd	%eax, %xmm3
	pinsrb	$1, -20(%r12), %xmm3
	pinsrb	$2, -17(%r12), %xmm3
	pinsrb	$3, -14(%r12), %xmm3
	movzbl	-11(%r12), %esi
	movdqa	%xmm3, %xmm1
	pinsrb	$4, %esi, %xmm1
	movzbl	-8(%r12), %r9d
	pinsrb	$5, %r9d, %xmm1
	movzbl	-5(%r12), %r15d
	pinsrb	$6, %r15d, %xmm1
	movzbl	-2(%r12), %r13d
	pinsrb	$7, %r13d, %xmm1
	movzbl	-21(%r12), %eax
	movd	%eax, %xmm2
	pinsrb	$1, -18(%r12), %xmm2
	pinsrb	$2, -15(%r12), %xmm2
	pinsrb	$3, -12(%r12), %xmm2
	movzbl	-9(%r12), %r11d
	movdqa	%xmm2, %xmm0
	pinsrb	$4, %r11d, %xmm0
	movzbl	-6(%r12), %eax
	pinsrb	$5, %eax, %xmm0
	movzbl	-3(%r12), %ecx
	pinsrb	$6, %ecx, %xmm0
	pmovzxbd	%xmm3, %xmm4
	movzbl	(%r12), %r14d
	pinsrb	$7, %r14d, %xmm0
	pmovzxbd	%xmm2, %xmm2
	movd	%esi, %xmm7
	pinsrb	$4, %r9d, %xmm7
	pinsrb	$8, %r15d, %xmm7
	pinsrb	$12, %r13d, %xmm7
	movzbl	-10(%r12), %esi
	movd	%esi, %xmm6
	pinsrb	$4, -7(%r12), %xmm6
	pinsrb	$8, -4(%r12), %xmm6
	pinsrb	$12, -1(%r12), %xmm6
	movzbl	-22(%r12), %esi
	movd	%esi, %xmm3
	pinsrb	$4, -19(%r12), %xmm3
	pinsrb	$8, -16(%r12), %xmm3
	pinsrb	$12, -13(%r12), %xmm3
	pslld	$8, %xmm3
	movd	%r11d, %xmm5
	pinsrb	$4, %eax, %xmm5
	pinsrb	$8, %ecx, %xmm5
	pinsrb	$12, %r14d, %xmm5
	pslld	$8, %xmm6
	pslld	$16, %xmm2
	pslld	$16, %xmm5
	por	%xmm6, %xmm5
	por	%xmm3, %xmm2
	por	%xmm7, %xmm6
	por	%xmm4, %xmm3
	movdqa	.LCPI1b6b6fbb_6(%rip), %xmm4
	pand	%xmm4, %xmm1
	psrld	$6, %xmm3
	psrld	$6, %xmm6
	movdqa	.LCPI1b6b6fbb_4(%rip), %xmm7
	pand	%xmm7, %xmm6
	pand	%xmm7, %xmm3
	packusdw	%xmm6, %xmm3
	pxor	%xmm6, %xmm6
	packuswb	%xmm6, %xmm3
	pand	%xmm4, %xmm3
	psrld	$12, %xmm2
	psrld	$12, %xmm5
	pand	%xmm7, %xmm5
	pand	%xmm7, %xmm2
	packusdw	%xmm5, %xmm2
	packuswb	%xmm6, %xmm2
	pand	%xmm4, %xmm2
	psrlw	$2, %xmm0
	pand	.LCPI1b6b6fbb_5(%rip), %xmm0
	movzbl	(%r10,%rbx,4), %eax
	movd	%eax, %xmm4
	pinsrb	$1, 4(%r10,%rbx,4), %xmm4
	pinsrb	$2, 8(%r10,%rbx,4), %xmm4
	pinsrb	$3, 12(%r10,%rbx,4), %xmm4
	pinsrb	$4, 16(%r10,%rbx,4), %xmm4
	pinsrb	$5, 20(%r10,%rbx,4), %xmm4
	pinsrb	$6, 24(%r10,%rbx,4), %xmm4
	pinsrb	$7, 28(%r10,%rbx,4), %xmm4
	movzbl	1(%r10,%rbx,4), %eax
	movd	%eax, %xmm5
	pinsrb	$1, 5(%r10,%rbx,4), %xmm5
	pinsrb	$2, 9(%r10,%rbx,4), %xmm5
	pinsrb	$3, 13(%r10,%rbx,4), %xmm5
	pinsrb	$4, 17(%r10,%rbx,4), %xmm5
	pinsrb	$5, 21(%r10,%rbx,4), %xmm5
	pinsrb	$6, 25(%r10,%rbx,4), %xmm5
	pinsrb	$7, 29(%r10,%rbx,4), %xmm5
	pmaxub	%xmm1, %xmm4
	pmaxub	%xmm3, %xmm5
	movzbl	2(%r10,%rbx,4), %eax
	movd	%eax, %xmm1
	pinsrb	$1, 6(%r10,%rbx,4), %xmm1
	pinsrb	$2, 10(%r10,%rbx,4), %xmm1
	pinsrb	$3, 14(%r10,%rbx,4), %xmm1
	pinsrb	$4, 18(%r10,%rbx,4), %xmm1
	pinsrb	$5, 22(%r10,%rbx,4), %xmm1
	pinsrb	$6, 26(%r10,%rbx,4), %xmm1
	pinsrb	$7, 30(%r10,%rbx,4), %xmm1
	movzbl	3(%r10,%rbx,4), %eax
	movd	%eax, %xmm3
	pinsrb	$1, 7(%r10,%rbx,4), %xmm3
	pinsrb	$2, 11(%r10,%rbx,4), %xmm3
	pinsrb	$3, 15(%r10,%rbx,4), %xmm3
	pinsrb	$4, 19(%r10,%rbx,4), %xmm3
	pinsrb	$5, 23(%r10,%rbx,4), %xmm3
	pinsrb	$6, 27(%r10,%rbx,4), %xmm3
	pmaxub	%xmm2, %xmm1
	pinsrb	$7, 31(%r10,%rbx,4), %xmm3
	pmaxub	%xmm0, %xmm3
	movdqa	%xmm4, %xmm0
	punpcklqdq	%xmm5, %xmm0
	movdqa	%xmm1, %xmm2
	punpcklqdq	%xmm3, %xmm2
	movq	.LCPI1b6b6fbb_9(%rip), %xmm6
	pshufb	%xmm6, %xmm0
	pshufb	%xmm6, %xmm2
	punpcklwd	%xmm2, %xmm0
	punpcklbw	%xmm5, %xmm4
	punpcklbw	%xmm3, %xmm1
	punpcklwd	%xmm1, %xmm4
	movdqu	%xmm4, (%r10,%rbx,4)
	movdqu	%xmm0, 16(%r10,%rbx,4)
	addq	$8, %rbx
	addq	$24, %r12
	cmpq	%rbx, %r8
	jne	.LBB1b6b6fbb_20
	movq	%r8, %rsi
	cmpq	%r8, %rdx
	movq	56(%rsp), %r15
	movq	8(%rsp), %r14
	movq	48(%rsp), %r12
	movq	40(%rsp), %r13
	movq	112(%rsp), %r8
	movq	64(%rsp), %r11
	je	.LBB1b6b6fbb_7
	jmp	.LBB1b6b6fbb_26
.LBB1b6b6fbb_22:
	movq	88(%rsp), %rax
	leaq	(%r8,%rax), %r12
	addq	%r11, %r12
	xorl	%ebx, %ebx
	.p2align	4
.LBB1b6b6fbb_23:
	movzbl	-47(%r12), %eax
	movd	%eax, %xmm3
	movzbl	-35(%r12), %r13d
	movzbl	-32(%r12), %esi
	pinsrb	$1, -44(%r12), %xmm3
	movzbl	-45(%r12), %eax
	movd	%eax, %xmm2
	pinsrb	$2, -41(%r12), %xmm3
	pinsrb	$1, -42(%r12), %xmm2
	pinsrb	$3, -38(%r12), %xmm3
	movzbl	-29(%r12), %eax
	pinsrb	$2, -39(%r12), %xmm2
	movdqa	%xmm3, %xmm0
	pinsrb	$3, -36(%r12), %xmm2
	pinsrb	$4, %r13d, %xmm0
	movzbl	-33(%r12), %r9d
	movdqa	%xmm2, %xmm1
	pinsrb	$4, %r9d, %xmm1
	movzbl	-26(%r12), %ecx
	movzbl	-30(%r12), %r15d
	pinsrb	$5, %esi, %xmm0
	movd	%r13d, %xmm4
	movzbl	-27(%r12), %r13d
	pinsrb	$5, %r15d, %xmm1
	pinsrb	$4, %esi, %xmm4
	pinsrb	$6, %eax, %xmm0
	pinsrb	$8, %eax, %xmm4
	pinsrb	$6, %r13d, %xmm1
	movzbl	-23(%r12), %eax
	movzbl	-24(%r12), %esi
	pinsrb	$7, %ecx, %xmm0
	pinsrb	$12, %ecx, %xmm4
	pinsrb	$7, %esi, %xmm1
	movzbl	-20(%r12), %ecx
	movd	%eax, %xmm10
	pinsrb	$8, %eax, %xmm0
	pinsrb	$4, %ecx, %xmm10
	pinsrb	$9, %ecx, %xmm0
	movzbl	-17(%r12), %r11d
	movzbl	-21(%r12), %eax
	pinsrb	$8, %eax, %xmm1
	movd	%eax, %xmm6
	movzbl	-18(%r12), %eax
	pinsrb	$9, %eax, %xmm1
	pinsrb	$8, %r11d, %xmm10
	pinsrb	$10, %r11d, %xmm0
	movzbl	-14(%r12), %ecx
	pinsrb	$4, %eax, %xmm6
	movzbl	-10(%r12), %eax
	movd	%eax, %xmm8
	movzbl	-15(%r12), %eax
	pinsrb	$10, %eax, %xmm1
	pinsrb	$12, %ecx, %xmm10
	pinsrb	$11, %ecx, %xmm0
	movzbl	-11(%r12), %ecx
	movd	%ecx, %xmm15
	pinsrb	$12, %ecx, %xmm0
	movzbl	-34(%r12), %ecx
	pinsrb	$8, %eax, %xmm6
	movzbl	-22(%r12), %eax
	movd	%eax, %xmm7
	movzbl	-12(%r12), %eax
	pinsrb	$11, %eax, %xmm1
	movd	%ecx, %xmm9
	movzbl	-9(%r12), %ecx
	pinsrb	$12, %ecx, %xmm1
	movd	%ecx, %xmm12
	pinsrb	$12, %eax, %xmm6
	movzbl	-8(%r12), %eax
	pinsrb	$4, %eax, %xmm15
	pinsrb	$13, %eax, %xmm0
	movd	%r9d, %xmm11
	pinsrb	$4, %r15d, %xmm11
	movzbl	-6(%r12), %eax
	pinsrb	$4, %eax, %xmm12
	pinsrb	$13, %eax, %xmm1
	movzbl	-5(%r12), %eax
	pinsrb	$8, %r13d, %xmm11
	movzbl	-2(%r12), %r9d
	pinsrb	$8, %eax, %xmm15
	pinsrb	$14, %eax, %xmm0
	movzbl	-46(%r12), %eax
	pinsrb	$12, %esi, %xmm11
	movq	72(%rsp), %rsi
	movzbl	-3(%r12), %r15d
	movd	%eax, %xmm5
	movzbl	(%r10,%rbx,4), %eax
	movd	%eax, %xmm13
	movzbl	1(%r10,%rbx,4), %eax
	movd	%eax, %xmm14
	movzbl	(%r12), %eax
	pinsrb	$4, -7(%r12), %xmm8
	pinsrb	$8, -4(%r12), %xmm8
	pinsrb	$12, -1(%r12), %xmm8
	pinsrb	$8, %r15d, %xmm12
	pinsrb	$12, %r9d, %xmm15
	pinsrb	$12, %eax, %xmm12
	pslld	$16, %xmm12
	pslld	$8, %xmm8
	por	%xmm8, %xmm12
	por	%xmm15, %xmm8
	pinsrb	$14, %r15d, %xmm1
	movzbl	3(%r10,%rbx,4), %ecx
	movd	%ecx, %xmm15
	pinsrb	$15, %r9d, %xmm0
	pinsrb	$4, -19(%r12), %xmm7
	pinsrb	$8, -16(%r12), %xmm7
	pinsrb	$12, -13(%r12), %xmm7
	pslld	$16, %xmm6
	pslld	$8, %xmm7
	por	%xmm7, %xmm6
	por	%xmm10, %xmm7
	pinsrb	$15, %eax, %xmm1
	movzbl	2(%r10,%rbx,4), %eax
	movd	%eax, %xmm10
	pinsrb	$4, -31(%r12), %xmm9
	pinsrb	$4, -43(%r12), %xmm5
	pinsrb	$8, -28(%r12), %xmm9
	pinsrb	$8, -40(%r12), %xmm5
	pinsrb	$12, -25(%r12), %xmm9
	pinsrb	$1, 4(%r10,%rbx,4), %xmm13
	pinsrb	$12, -37(%r12), %xmm5
	pmovzxbd	%xmm3, %xmm3
	pinsrb	$2, 8(%r10,%rbx,4), %xmm13
	pmovzxbd	%xmm2, %xmm2
	pslld	$16, %xmm11
	pinsrb	$3, 12(%r10,%rbx,4), %xmm13
	pslld	$8, %xmm9
	por	%xmm9, %xmm11
	pinsrb	$4, 16(%r10,%rbx,4), %xmm13
	por	%xmm4, %xmm9
	pslld	$8, %xmm5
	pinsrb	$5, 20(%r10,%rbx,4), %xmm13
	pslld	$16, %xmm2
	por	%xmm5, %xmm2
	pinsrb	$6, 24(%r10,%rbx,4), %xmm13
	por	%xmm3, %xmm5
	psrld	$6, %xmm9
	pinsrb	$7, 28(%r10,%rbx,4), %xmm13
	psrld	$6, %xmm7
	psrld	$6, %xmm8
	pinsrb	$1, 5(%r10,%rbx,4), %xmm14
	psrld	$6, %xmm5
	movdqa	.LCPI1b6b6fbb_4(%rip), %xmm3
	pinsrb	$2, 9(%r10,%rbx,4), %xmm14
	pand	%xmm3, %xmm8
	psrld	$12, %xmm11
	pinsrb	$3, 13(%r10,%rbx,4), %xmm14
	pand	%xmm3, %xmm7
	psrld	$12, %xmm6
	pinsrb	$4, 17(%r10,%rbx,4), %xmm14
	pand	%xmm3, %xmm9
	psrld	$12, %xmm12
	pinsrb	$5, 21(%r10,%rbx,4), %xmm14
	psrld	$12, %xmm2
	pinsrb	$6, 25(%r10,%rbx,4), %xmm14
	pinsrb	$8, 32(%r10,%rbx,4), %xmm13
	pand	%xmm3, %xmm12
	pinsrb	$7, 29(%r10,%rbx,4), %xmm14
	packusdw	%xmm8, %xmm7
	pand	%xmm3, %xmm6
	pinsrb	$8, 33(%r10,%rbx,4), %xmm14
	pand	%xmm3, %xmm5
	pand	%xmm3, %xmm11
	pinsrb	$1, 7(%r10,%rbx,4), %xmm15
	packusdw	%xmm12, %xmm6
	pand	%xmm3, %xmm2
	pinsrb	$2, 11(%r10,%rbx,4), %xmm15
	packusdw	%xmm9, %xmm5
	pinsrb	$3, 15(%r10,%rbx,4), %xmm15
	pinsrb	$9, 36(%r10,%rbx,4), %xmm13
	pinsrb	$4, 19(%r10,%rbx,4), %xmm15
	pinsrb	$9, 37(%r10,%rbx,4), %xmm14
	packusdw	%xmm11, %xmm2
	pinsrb	$5, 23(%r10,%rbx,4), %xmm15
	packuswb	%xmm7, %xmm5
	movdqa	.LCPI1b6b6fbb_5(%rip), %xmm3
	pinsrb	$6, 27(%r10,%rbx,4), %xmm15
	packuswb	%xmm6, %xmm2
	pinsrb	$7, 31(%r10,%rbx,4), %xmm15
	pinsrb	$10, 40(%r10,%rbx,4), %xmm13
	pinsrb	$8, 35(%r10,%rbx,4), %xmm15
	pinsrb	$10, 41(%r10,%rbx,4), %xmm14
	pinsrb	$9, 39(%r10,%rbx,4), %xmm15
	pinsrb	$11, 44(%r10,%rbx,4), %xmm13
	pinsrb	$10, 43(%r10,%rbx,4), %xmm15
	pinsrb	$11, 45(%r10,%rbx,4), %xmm14
	pinsrb	$11, 47(%r10,%rbx,4), %xmm15
	pinsrb	$12, 48(%r10,%rbx,4), %xmm13
	pinsrb	$1, 6(%r10,%rbx,4), %xmm10
	pinsrb	$12, 49(%r10,%rbx,4), %xmm14
	pinsrb	$2, 10(%r10,%rbx,4), %xmm10
	pinsrb	$12, 51(%r10,%rbx,4), %xmm15
	pinsrb	$3, 14(%r10,%rbx,4), %xmm10
	pinsrb	$13, 52(%r10,%rbx,4), %xmm13
	pinsrb	$4, 18(%r10,%rbx,4), %xmm10
	pinsrb	$13, 53(%r10,%rbx,4), %xmm14
	pinsrb	$5, 22(%r10,%rbx,4), %xmm10
	pinsrb	$13, 55(%r10,%rbx,4), %xmm15
	pinsrb	$6, 26(%r10,%rbx,4), %xmm10
	pinsrb	$14, 56(%r10,%rbx,4), %xmm13
	pinsrb	$7, 30(%r10,%rbx,4), %xmm10
	pinsrb	$14, 57(%r10,%rbx,4), %xmm14
	pinsrb	$8, 34(%r10,%rbx,4), %xmm10
	pinsrb	$14, 59(%r10,%rbx,4), %xmm15
	pinsrb	$9, 38(%r10,%rbx,4), %xmm10
	pinsrb	$15, 60(%r10,%rbx,4), %xmm13
	pinsrb	$10, 42(%r10,%rbx,4), %xmm10
	pinsrb	$15, 61(%r10,%rbx,4), %xmm14
	pinsrb	$11, 46(%r10,%rbx,4), %xmm10
	pinsrb	$15, 63(%r10,%rbx,4), %xmm15
	pand	%xmm3, %xmm2
	pinsrb	$12, 50(%r10,%rbx,4), %xmm10
	psrlw	$2, %xmm1
	pand	%xmm3, %xmm5
	pinsrb	$13, 54(%r10,%rbx,4), %xmm10
	pand	%xmm3, %xmm1
	pand	%xmm3, %xmm0
	pinsrb	$14, 58(%r10,%rbx,4), %xmm10
	pmaxub	%xmm0, %xmm13
	pmaxub	%xmm5, %xmm14
	pinsrb	$15, 62(%r10,%rbx,4), %xmm10
	pmaxub	%xmm1, %xmm15
	pmaxub	%xmm2, %xmm10
	movdqa	%xmm13, %xmm0
	movdqa	%xmm10, %xmm1
	punpcklbw	%xmm14, %xmm0
	punpcklbw	%xmm15, %xmm1
	movdqa	%xmm0, %xmm2
	punpckhbw	%xmm14, %xmm13
	punpckhwd	%xmm1, %xmm0
	punpckhbw	%xmm15, %xmm10
	movdqa	%xmm13, %xmm3
	punpcklwd	%xmm10, %xmm3
	punpcklwd	%xmm1, %xmm2
	punpckhwd	%xmm10, %xmm13
	movdqu	%xmm13, 48(%r10,%rbx,4)
	movdqu	%xmm3, 32(%r10,%rbx,4)
	movdqu	%xmm0, 16(%r10,%rbx,4)
	movdqu	%xmm2, (%r10,%rbx,4)
	addq	$16, %rbx
	addq	$48, %r12
	cmpq	%rbx, %rsi
	jne	.LBB1b6b6fbb_23
	cmpq	%rsi, %rdx
	movq	56(%rsp), %r15
	movq	48(%rsp), %r12
	movq	40(%rsp), %r13
	movq	64(%rsp), %r11
	je	.LBB1b6b6fbb_7
	movq	72(%rsp), %rsi
	movq	%rsi, %rbx
	testb	$8, %dl
	jne	.LBB1b6b6fbb_19
	jmp	.LBB1b6b6fbb_26
.LBB1b6b6fbb_28:
	movq	80(%rsp), %rax
	movw	$0, (%rax)
	movl	4(%rsp), %ecx
	movb	%cl, 8(%rax)
	movq	$0, 9(%rax)
	movq	$0, 16(%rax)
	movq	%r14, 24(%rax)
	movq	%r13, 32(%rax)
	movq	32(%rsp), %rcx
	movq	%rcx, 40(%rax)
	pxor	%xmm0, %xmm0
	movdqu	%xmm0, 48(%rax)
	movq	$0, 64(%rax)
	movb	$1, 72(%rax)
	movl	$0, 73(%rax)
	movl	$0, 76(%rax)
.LBB1b6b6fbb_29:
	addq	$152, %rsp
	popq	%rbx
	popq	%r12
	popq	%r13
	popq	%r14
	popq	%r15
	popq	%rbp
	retq
.Lfunc_end1b6b6fbb:
	.size	hll_sketch.register_folds.fold_of_registers.dd8a39ea15bd038f, .Lfunc_end1b6b6fbb-hll_sketch.register_folds.fold_of_registers.dd8a39ea15bd038f

	.section	.rodata.cst16,"aM",@progbits,16
	.p2align	4, 0x0
.LCPIae8feccb_0:
	.long	63
	.long	63
	.long	63
	.long	63
.LCPIae8feccb_1:
	.long	4032
	.long	4032
	.long	4032
	.long	4032
.LCPIae8feccb_2:
	.long	258048
	.long	258048
	.long	258048
	.long	258048
.LCPIae8feccb_3:
	.long	16515072
	.long	16515072
	.long	16515072
	.long	16515072
.LCPIae8feccb_4:
	.byte	0
	.byte	1
	.byte	2
	.byte	4
	.byte	5
	.byte	6
	.byte	8
	.byte	9
	.zero	1
	.zero	1
	.zero	1
	.zero	1
	.zero	1
	.zero	1
	.zero	1
	.zero	1
.LCPIae8feccb_5:
	.byte	10
	.byte	12
	.byte	13
	.byte	14
	.zero	1
	.zero	1
	.zero	1
	.zero	1
	.zero	1
	.zero	1
	.zero	1
	.zero	1
	.zero	1
	.zero	1
	.zero	1
	.zero	1
	.section	.text.hll_sketch.mode.array_into_mode.8a2f8b2564a2651f,"ax",@progbits
	.p2align	4
	.type	hll_sketch.mode.array_into_mode.8a2f8b2564a2651f,@function
hll_sketch.mode.array_into_mode.8a2f8b2564a2651f:
	pushq	%rbp
	pushq	%r15
	pushq	%r14
	pushq	%r13
	pushq	%r12
	pushq	%rbx
	subq	$168, %rsp
	movq	%rdi, %rbx
	movl	(%rsi), %r13d
	movq	16(%rsi), %r9
	movq	24(%rsi), %r14
	movq	32(%rsi), %r10
	movq	40(%rsi), %r11
	movq	48(%rsi), %r15
	movq	56(%rsi), %r8
	movq	%r8, %r12
	shrq	$8, %r12
	movzbl	64(%rsi), %edi
	movzwl	69(%rsi), %eax
	movzbl	71(%rsi), %ecx
	shll	$16, %ecx
	orl	%eax, %ecx
	shlq	$32, %rcx
	movl	65(%rsi), %ebp
	orq	%rcx, %rbp
	testb	%dl, %dl
	je	.LBBae8feccb_3
	movzbl	%dl, %eax
	cmpl	$1, %eax
	jne	.LBBae8feccb_2
	movl	%r13d, 104(%rsp)
	movq	%r14, %r13
	shrq	$2, %r13
	movq	%r9, 80(%rsp)
	je	.LBBae8feccb_7
	pxor	%xmm1, %xmm1
	movb	$12, %sil
	movb	$1, %dl
	movabsq	$-6148914691236517205, %rax
	cmpq	%rax, %r14
	ja	.LBBae8feccb_9
	movq	%r14, 8(%rsp)
	movq	%r8, 32(%rsp)
	movb	%dil, (%rsp)
	movq	%r11, 64(%rsp)
	movq	%r10, 16(%rsp)
	movq	%r13, %r14
	leaq	(%r13,%r13,2), %r13
	movl	$1, %esi
	movq	%r13, %rdi
	callq	rattle_alloc@PLT
	testb	$1, %al
	je	.LBBae8feccb_11
	cmpq	$1, %r14
	movq	%rdx, 24(%rsp)
	jne	.LBBae8feccb_14
	xorl	%ecx, %ecx
	jmp	.LBBae8feccb_15
.LBBae8feccb_3:
	movq	%r8, 32(%rsp)
	movb	%dil, (%rsp)
	movq	%r14, %rcx
	movq	%r11, %r14
	movq	%r10, 16(%rsp)
	pxor	%xmm0, %xmm0
	movdqa	%xmm0, 144(%rsp)
	movdqa	%xmm0, 128(%rsp)
	movdqa	%xmm0, 112(%rsp)
	movq	$0, 160(%rsp)
	leaq	112(%rsp), %rdi
	movl	%r13d, %esi
	movq	%r9, 80(%rsp)
	movq	%r9, %rdx
	callq	hll_registers.nibble_registers.NibbleRegisters.from_values.8a2f8b2564a2651f
	cmpb	$0, 112(%rsp)
	je	.LBBae8feccb_4
	movzbl	113(%rsp), %esi
	movb	$1, %dl
	xorl	%edi, %edi
	xorl	%r13d, %r13d
	xorl	%r12d, %r12d
	movq	$0, 56(%rsp)
	xorl	%r8d, %r8d
	movq	$0, 8(%rsp)
	xorl	%r9d, %r9d
	xorl	%ecx, %ecx
	movq	$0, 48(%rsp)
	xorl	%r11d, %r11d
	xorl	%r15d, %r15d
	movq	$0, (%rsp)
	movq	16(%rsp), %r10
	pxor	%xmm1, %xmm1
	jmp	.LBBae8feccb_28
.LBBae8feccb_2:
	movq	8(%rsi), %xmm0
	movd	%r13d, %xmm1
	pinsrd	$1, 4(%rsi), %xmm1
	punpcklqdq	%xmm0, %xmm1
	movb	$4, %al
	xorl	%r13d, %r13d
	xorl	%edx, %edx
	xorl	%esi, %esi
	xorl	%ecx, %ecx
	jmp	.LBBae8feccb_32
.LBBae8feccb_7:
	leaq	47(%rsp), %rax
	movq	%rax, 24(%rsp)
	movq	$0, 72(%rsp)
	movq	%r14, 8(%rsp)
	movq	%r14, %rax
	shrq	$4, %rax
	jne	.LBBae8feccb_17
	jmp	.LBBae8feccb_19
.LBBae8feccb_4:
	movdqu	120(%rsp), %xmm1
	movq	136(%rsp), %r9
	movq	144(%rsp), %rcx
	movq	152(%rsp), %rax
	movq	%rax, 48(%rsp)
	movl	%r15d, %r8d
	shrq	$8, %r15
	movq	%r12, %rdi
	movq	%r15, %r12
	movq	%r14, 56(%rsp)
	movq	160(%rsp), %r11
	movb	$2, %dl
	movq	%rdx, 8(%rsp)
	xorl	%edx, %edx
	movq	%rbp, %r13
	xorl	%esi, %esi
	movq	32(%rsp), %r15
	movzbl	(%rsp), %eax
	movq	%rax, (%rsp)
	movq	16(%rsp), %r10
	jmp	.LBBae8feccb_28
.LBBae8feccb_9:
	xorl	%edi, %edi
	xorl	%r13d, %r13d
	xorl	%r12d, %r12d
	movq	$0, 56(%rsp)
	xorl	%r8d, %r8d
	movq	$0, 8(%rsp)
	xorl	%r9d, %r9d
	xorl	%ecx, %ecx
	movq	$0, 48(%rsp)
	xorl	%r11d, %r11d
	xorl	%r15d, %r15d
	movq	$0, (%rsp)
	jmp	.LBBae8feccb_28
.LBBae8feccb_11:
	xorl	%edi, %edi
	xorl	%r13d, %r13d
	xorl	%r12d, %r12d
	movq	$0, 56(%rsp)
	xorl	%r8d, %r8d
	movq	$0, 8(%rsp)
	xorl	%r9d, %r9d
	xorl	%ecx, %ecx
	movq	$0, 48(%rsp)
	xorl	%r11d, %r11d
	xorl	%r15d, %r15d
	movq	$0, (%rsp)
	movq	16(%rsp), %r10
	pxor	%xmm1, %xmm1
	movb	$1, %dl
	movb	$12, %sil
	jmp	.LBBae8feccb_28
.LBBae8feccb_14:
	addq	$-3, %r13
	movq	%rdx, %rdi
	xorl	%esi, %esi
	movq	%r13, %rdx
	callq	memset@PLT
	movq	24(%rsp), %rdx
	leaq	-1(%r14), %rcx
.LBBae8feccb_15:
	movq	80(%rsp), %r9
	movq	64(%rsp), %r11
	movzbl	(%rsp), %edi
	movq	32(%rsp), %r8
	movq	%r14, %r13
	leaq	(%rcx,%rcx,2), %rax
	movw	$0, (%rdx,%rax)
	movb	$0, 2(%rdx,%rax)
	incq	%rcx
	movq	%rcx, 72(%rsp)
	movq	16(%rsp), %r10
	movq	8(%rsp), %r14
	movq	%r14, 8(%rsp)
	movq	%r14, %rax
	shrq	$4, %rax
	je	.LBBae8feccb_19
.LBBae8feccb_17:
	movq	24(%rsp), %rcx
	addq	$8, %rcx
	movq	%r9, %rdx
	movq	%rax, %rsi
	.p2align	4
.LBBae8feccb_18:
	movdqu	(%rdx), %xmm0
	movdqa	.LCPIae8feccb_0(%rip), %xmm1
	pand	%xmm0, %xmm1
	movdqa	%xmm0, %xmm2
	psrld	$2, %xmm2
	pand	.LCPIae8feccb_1(%rip), %xmm2
	por	%xmm1, %xmm2
	movdqa	%xmm0, %xmm1
	psrld	$4, %xmm1
	pand	.LCPIae8feccb_2(%rip), %xmm1
	psrld	$6, %xmm0
	pand	.LCPIae8feccb_3(%rip), %xmm0
	por	%xmm1, %xmm0
	por	%xmm2, %xmm0
	movdqa	%xmm0, %xmm1
	pshufb	.LCPIae8feccb_4(%rip), %xmm1
	movq	%xmm1, -8(%rcx)
	pshufb	.LCPIae8feccb_5(%rip), %xmm0
	movd	%xmm0, (%rcx)
	addq	$12, %rcx
	addq	$16, %rdx
	decq	%rsi
	jne	.LBBae8feccb_18
.LBBae8feccb_19:
	movq	%r15, 56(%rsp)
	movq	%r13, %rcx
	andq	$3, %rcx
	movb	%dil, (%rsp)
	je	.LBBae8feccb_23
	movq	8(%rsp), %r14
	andq	$-16, %r14
	shlq	$2, %rax
	leaq	(%rax,%rax,2), %rax
	movl	(%r9,%r14), %edi
	movzbl	%dil, %edx
	movq	%r8, %r15
	movl	%edi, %r8d
	shrl	$2, %r8d
	andl	$16320, %r8d
	addl	%edx, %r8d
	movl	%edi, %edx
	shrl	$4, %edx
	andl	$1044480, %edx
	addl	%r8d, %edx
	shrl	$6, %edi
	andl	$16515072, %edi
	addl	%edx, %edi
	shrl	$16, %edi
	movq	24(%rsp), %rsi
	movb	%r8b, (%rsi,%rax)
	movq	%r15, %r8
	movb	%dh, 1(%rsi,%rax)
	movb	%dil, 2(%rsi,%rax)
	cmpl	$1, %ecx
	je	.LBBae8feccb_23
	movl	4(%r9,%r14), %edi
	movzbl	%dil, %edx
	movl	%edi, %r8d
	shrl	$2, %r8d
	andl	$16320, %r8d
	addl	%edx, %r8d
	movl	%edi, %edx
	shrl	$4, %edx
	andl	$1044480, %edx
	addl	%r8d, %edx
	shrl	$6, %edi
	andl	$16515072, %edi
	addl	%edx, %edi
	shrl	$16, %edi
	movq	24(%rsp), %rsi
	movb	%r8b, 3(%rsi,%rax)
	movq	%r15, %r8
	movb	%dh, 4(%rsi,%rax)
	movb	%dil, 5(%rsi,%rax)
	cmpl	$2, %ecx
	je	.LBBae8feccb_23
	movl	8(%r9,%r14), %edx
	movzbl	%dl, %ecx
	movl	%edx, %esi
	shrl	$2, %esi
	andl	$16320, %esi
	addl	%ecx, %esi
	movl	%edx, %ecx
	shrl	$4, %ecx
	andl	$1044480, %ecx
	addl	%esi, %ecx
	shrl	$6, %edx
	andl	$16515072, %edx
	addl	%ecx, %edx
	shrl	$16, %edx
	movq	24(%rsp), %r14
	movb	%sil, 6(%r14,%rax)
	movq	%r14, %rsi
	movb	%ch, 7(%rsi,%rax)
	movb	%dl, 8(%r14,%rax)
.LBBae8feccb_23:
	movq	%r13, 48(%rsp)
	movq	8(%rsp), %r15
	shrq	$13, %r15
	movq	%r10, 16(%rsp)
	movq	%r11, 64(%rsp)
	movq	%r8, 32(%rsp)
	je	.LBBae8feccb_24
	xorl	%r14d, %r14d
	movq	%r9, %r13
	.p2align	4
.LBBae8feccb_26:
	movl	$8192, %esi
	movq	%r13, %rdi
	callq	hll_kernels.kernels.zeros_in
	addq	%rax, %r14
	addq	$8192, %r13
	decq	%r15
	jne	.LBBae8feccb_26
	jmp	.LBBae8feccb_27
.LBBae8feccb_24:
	xorl	%r14d, %r14d
.LBBae8feccb_27:
	movq	8(%rsp), %rdi
	movl	%edi, %esi
	andl	$8191, %esi
	andq	$-8192, %rdi
	addq	80(%rsp), %rdi
	callq	hll_kernels.kernels.zeros_in
	addl	%eax, %r14d
	movzbl	104(%rsp), %eax
	movl	$1, %ecx
	movd	%ecx, %xmm0
	movd	%eax, %xmm1
	punpckldq	%xmm0, %xmm1
	movd	%r14d, %xmm0
	punpcklqdq	%xmm0, %xmm1
	movb	$3, %al
	movq	%rax, 8(%rsp)
	xorl	%r13d, %r13d
	movq	%rbp, %rdi
	movq	32(%rsp), %rax
	movl	%eax, %r8d
	xorl	%edx, %edx
	xorl	%esi, %esi
	movzbl	(%rsp), %eax
	movl	%eax, %r15d
	movq	$0, (%rsp)
	movq	16(%rsp), %r10
	movq	64(%rsp), %r11
	movq	24(%rsp), %r9
	movq	72(%rsp), %rcx
.LBBae8feccb_28:
	testq	%r10, %r10
	je	.LBBae8feccb_29
	movq	%r13, 16(%rsp)
	movq	%rdi, %r13
	movq	80(%rsp), %rdi
	movq	%r11, %rbp
	movq	%r9, 24(%rsp)
	movq	%rcx, 72(%rsp)
	movdqa	%xmm1, 80(%rsp)
	movq	%r15, 32(%rsp)
	movq	%r12, %r15
	movq	%rdx, %r12
	movq	%rsi, %r14
	movq	%r8, 104(%rsp)
	callq	rattle_dealloc@PLT
	movq	%r14, %rsi
	movq	%r12, %rdx
	movq	%r15, %r12
	movdqa	80(%rsp), %xmm1
	movq	%rbp, %r11
	movq	%r13, %rbp
	movq	16(%rsp), %r13
	movq	104(%rsp), %r8
	movq	24(%rsp), %r9
	movq	72(%rsp), %r14
	movq	48(%rsp), %r10
	movq	32(%rsp), %rax
	movl	%eax, %edi
	jmp	.LBBae8feccb_31
.LBBae8feccb_29:
	movq	%rdi, %rbp
	movq	%rcx, %r14
	movq	48(%rsp), %r10
	movl	%r15d, %edi
.LBBae8feccb_31:
	movq	56(%rsp), %r15
	movq	8(%rsp), %rax
	movq	(%rsp), %rcx
.LBBae8feccb_32:
	movzbl	%al, %eax
	movb	%dl, (%rbx)
	movb	%sil, 1(%rbx)
	movq	%rax, 8(%rbx)
	movdqu	%xmm1, 16(%rbx)
	movq	%r9, 32(%rbx)
	movq	%r14, 40(%rbx)
	movq	%r10, 48(%rbx)
	movq	%r11, 56(%rbx)
	movq	%r15, 64(%rbx)
	movb	%r8b, 72(%rbx)
	movl	%r12d, 73(%rbx)
	movq	%r12, %rax
	shrq	$48, %rax
	movb	%al, 79(%rbx)
	shrq	$32, %r12
	movw	%r12w, 77(%rbx)
	movb	%dil, 80(%rbx)
	movl	%ebp, 81(%rbx)
	movq	%rbp, %rax
	shrq	$48, %rax
	movb	%al, 87(%rbx)
	shrq	$32, %rbp
	movw	%bp, 85(%rbx)
	movb	%cl, 88(%rbx)
	movl	%r13d, 89(%rbx)
	movq	%r13, %rax
	shrq	$48, %rax
	movb	%al, 95(%rbx)
	shrq	$32, %r13
	movw	%r13w, 93(%rbx)
	addq	$168, %rsp
	popq	%rbx
	popq	%r12
	popq	%r13
	popq	%r14
	popq	%r15
	popq	%rbp
	retq
.Lfunc_endae8feccb:
	.size	hll_sketch.mode.array_into_mode.8a2f8b2564a2651f, .Lfunc_endae8feccb-hll_sketch.mode.array_into_mode.8a2f8b2564a2651f

	.section	.rodata.cst16,"aM",@progbits,16
	.p2align	4, 0x0
.LCPI5d47c0fe_0:
	.quad	1
	.quad	1
.LCPI5d47c0fe_1:
	.zero	16,1
.LCPI5d47c0fe_2:
	.short	1
	.short	1
	.short	1
	.short	1
	.short	1
	.short	1
	.short	1
	.short	1
	.section	.text.hll_kernels.kernels.zeros_in,"ax",@progbits
	.p2align	4
	.type	hll_kernels.kernels.zeros_in,@function
hll_kernels.kernels.zeros_in:
	movq	%rsi, %rdx
	shrq	$6, %rdx
	movl	%esi, %eax
	andl	$63, %eax
	testq	%rdx, %rdx
	je	.LBB5d47c0fe_1
	pxor	%xmm4, %xmm4
	cmpq	$1, %rdx
	jne	.LBB5d47c0fe_4
	xorl	%ecx, %ecx
	pxor	%xmm1, %xmm1
	pxor	%xmm0, %xmm0
	pxor	%xmm2, %xmm2
	pxor	%xmm3, %xmm3
	jmp	.LBB5d47c0fe_7
.LBB5d47c0fe_1:
	pxor	%xmm1, %xmm1
	pxor	%xmm0, %xmm0
	pxor	%xmm2, %xmm2
	pxor	%xmm3, %xmm3
	jmp	.LBB5d47c0fe_8
.LBB5d47c0fe_4:
	movq	%rdx, %r8
	andq	$-2, %r8
	leaq	64(%rdi), %r9
	pxor	%xmm5, %xmm5
	xorl	%ecx, %ecx
	pxor	%xmm1, %xmm1
	pxor	%xmm0, %xmm0
	pxor	%xmm2, %xmm2
	pxor	%xmm3, %xmm3
	.p2align	4
.LBB5d47c0fe_5:
	movdqu	-64(%r9), %xmm6
	movdqu	-48(%r9), %xmm7
	movdqu	-32(%r9), %xmm8
	movdqu	-16(%r9), %xmm9
	pcmpeqb	%xmm5, %xmm8
	psubb	%xmm8, %xmm2
	pcmpeqb	%xmm5, %xmm7
	psubb	%xmm7, %xmm0
	pcmpeqb	%xmm5, %xmm6
	psubb	%xmm6, %xmm1
	pcmpeqb	%xmm5, %xmm9
	psubb	%xmm9, %xmm3
	movdqu	32(%r9), %xmm6
	movdqu	16(%r9), %xmm7
	movdqu	(%r9), %xmm8
	movdqu	48(%r9), %xmm9
	pcmpeqb	%xmm5, %xmm9
	psubb	%xmm9, %xmm3
	pcmpeqb	%xmm5, %xmm8
	psubb	%xmm8, %xmm1
	pcmpeqb	%xmm5, %xmm7
	psubb	%xmm7, %xmm0
	pcmpeqb	%xmm5, %xmm6
	psubb	%xmm6, %xmm2
	addq	$2, %rcx
	subq	$-128, %r9
	cmpq	%rcx, %r8
	jne	.LBB5d47c0fe_5
	testb	$1, %dl
	je	.LBB5d47c0fe_8
.LBB5d47c0fe_7:
	shlq	$6, %rcx
	movdqu	(%rdi,%rcx), %xmm5
	movdqu	16(%rdi,%rcx), %xmm6
	movdqu	32(%rdi,%rcx), %xmm7
	movdqu	48(%rdi,%rcx), %xmm8
	pcmpeqb	%xmm4, %xmm5
	psubb	%xmm5, %xmm1
	pcmpeqb	%xmm4, %xmm6
	psubb	%xmm6, %xmm0
	pcmpeqb	%xmm4, %xmm7
	psubb	%xmm7, %xmm2
	pcmpeqb	%xmm4, %xmm8
	psubb	%xmm8, %xmm3
.LBB5d47c0fe_8:
	testq	%rax, %rax
	je	.LBB5d47c0fe_9
	movq	%rsi, %rdx
	andq	$-64, %rdx
	cmpl	$4, %eax
	jae	.LBB5d47c0fe_12
	xorl	%ecx, %ecx
	xorl	%esi, %esi
	jmp	.LBB5d47c0fe_15
.LBB5d47c0fe_9:
	xorl	%ecx, %ecx
	jmp	.LBB5d47c0fe_17
.LBB5d47c0fe_12:
	andl	$60, %esi
	leaq	(%rdx,%rdi), %rcx
	addq	$2, %rcx
	pxor	%xmm5, %xmm5
	xorl	%r8d, %r8d
	pxor	%xmm6, %xmm6
	pxor	%xmm4, %xmm4
	.p2align	4
.LBB5d47c0fe_13:
	movzwl	-2(%rcx,%r8), %r9d
	movd	%r9d, %xmm7
	movzwl	(%rcx,%r8), %r9d
	movd	%r9d, %xmm8
	pcmpeqb	%xmm5, %xmm7
	pmovzxbq	%xmm7, %xmm7
	movdqa	.LCPI5d47c0fe_0(%rip), %xmm9
	pand	%xmm9, %xmm7
	paddq	%xmm7, %xmm6
	pcmpeqb	%xmm5, %xmm8
	pmovzxbq	%xmm8, %xmm7
	pand	%xmm9, %xmm7
	paddq	%xmm7, %xmm4
	addq	$4, %r8
	cmpq	%r8, %rsi
	jne	.LBB5d47c0fe_13
	paddq	%xmm6, %xmm4
	pshufd	$238, %xmm4, %xmm5
	paddq	%xmm4, %xmm5
	movq	%xmm5, %rcx
	cmpl	%esi, %eax
	je	.LBB5d47c0fe_17
.LBB5d47c0fe_15:
	addq	%rdx, %rdi
	.p2align	4
.LBB5d47c0fe_16:
	cmpb	$1, (%rdi,%rsi)
	adcq	$0, %rcx
	incq	%rsi
	cmpq	%rsi, %rax
	jne	.LBB5d47c0fe_16
.LBB5d47c0fe_17:
	movdqa	.LCPI5d47c0fe_1(%rip), %xmm4
	pmaddubsw	%xmm4, %xmm1
	movdqa	.LCPI5d47c0fe_2(%rip), %xmm5
	pmaddwd	%xmm5, %xmm1
	pmaddubsw	%xmm4, %xmm0
	pmaddwd	%xmm5, %xmm0
	pmaddubsw	%xmm4, %xmm2
	pmaddwd	%xmm5, %xmm2
	paddd	%xmm1, %xmm2
	pmaddubsw	%xmm4, %xmm3
	pmaddwd	%xmm5, %xmm3
	paddd	%xmm0, %xmm3
	paddd	%xmm2, %xmm3
	pshufd	$238, %xmm3, %xmm0
	paddd	%xmm3, %xmm0
	pshufd	$85, %xmm0, %xmm1
	paddd	%xmm0, %xmm1
	movd	%xmm1, %eax
	addq	%rcx, %rax
	retq
.Lfunc_end5d47c0fe:
	.size	hll_kernels.kernels.zeros_in, .Lfunc_end5d47c0fe-hll_kernels.kernels.zeros_in

	.section	.rodata.cst16,"aM",@progbits,16
	.p2align	4, 0x0
.LCPI244be253_0:
	.quad	19
	.quad	20
.LCPI244be253_1:
	.quad	17
	.quad	18
.LCPI244be253_2:
	.quad	15
	.quad	16
.LCPI244be253_3:
	.quad	13
	.quad	14
.LCPI244be253_4:
	.quad	11
	.quad	12
.LCPI244be253_5:
	.quad	9
	.quad	10
.LCPI244be253_6:
	.quad	7
	.quad	8
.LCPI244be253_7:
	.quad	5
	.quad	6
.LCPI244be253_8:
	.quad	3
	.quad	3
.LCPI244be253_9:
	.quad	-9223372036854775808
	.quad	-9223372036854775808
.LCPI244be253_10:
	.quad	16
	.quad	16
.LCPI244be253_11:
	.byte	16
	.byte	15
	.byte	14
	.byte	13
	.byte	12
	.byte	11
	.byte	10
	.byte	9
	.byte	8
	.byte	7
	.byte	6
	.byte	5
	.byte	4
	.byte	3
	.byte	2
	.byte	1
	.section	.text.hll_sketch.folding.mode_of_coupons.8a2f8b2564a2651f,"ax",@progbits
	.p2align	4
	.type	hll_sketch.folding.mode_of_coupons.8a2f8b2564a2651f,@function
hll_sketch.folding.mode_of_coupons.8a2f8b2564a2651f:
	pushq	%rbp
	pushq	%r15
	pushq	%r14
	pushq	%r13
	pushq	%r12
	pushq	%rbx
	subq	$328, %rsp
	movq	%rcx, %r14
	movl	%edx, %r15d
	movq	%rdi, %r13
	pxor	%xmm0, %xmm0
	movdqa	%xmm0, 80(%rsp)
	movdqa	%xmm0, 64(%rsp)
	movdqa	%xmm0, 48(%rsp)
	movdqa	%xmm0, 32(%rsp)
	movdqa	%xmm0, 16(%rsp)
	movdqa	%xmm0, (%rsp)
	movdqa	%xmm0, 288(%rsp)
	movdqa	%xmm0, 304(%rsp)
	movdqa	%xmm0, 192(%rsp)
	movdqa	%xmm0, 208(%rsp)
	movdqa	%xmm0, 224(%rsp)
	movdqa	%xmm0, 240(%rsp)
	movq	8(%rcx), %rax
	cmpq	$8, %rax
	jae	.LBB244be253_1
.LBB244be253_14:
	movq	$0, 168(%rsp)
	cmpb	$0, 16(%r14)
	movq	$3, 120(%rsp)
	movdqu	%xmm0, 128(%rsp)
	movdqu	%xmm0, 144(%rsp)
	movdqu	%xmm0, 156(%rsp)
	je	.LBB244be253_15
	movq	32(%r14), %r12
	movq	24(%r14), %r14
	jmp	.LBB244be253_17
.LBB244be253_1:
	leal	1(%rsi), %ecx
	xorl	%edx, %edx
	subb	$3, %cl
	movzbl	%cl, %ecx
	cmovbl	%edx, %ecx
	cmpb	$6, %cl
	jb	.LBB244be253_10
	movzbl	%cl, %edx
	leaq	-5(%rdx), %rdi
	movl	$5, %ecx
	cmpq	$64, %rdi
	jae	.LBB244be253_3
	.p2align	4
.LBB244be253_8:
	movl	$3, %edi
	shlq	%cl, %rdi
	shrq	$2, %rdi
	cmpq	%rdi, %rax
	jbe	.LBB244be253_13
	incq	%rcx
	cmpq	%rcx, %rdx
	jne	.LBB244be253_8
	jmp	.LBB244be253_10
.LBB244be253_15:
	addq	$20, %r14
	movl	$8, %r12d
.LBB244be253_17:
	movl	%r15d, 96(%rsp)
	leaq	140(%rsp), %rbp
	xorl	%esi, %esi
.LBB244be253_18:
	movzbl	120(%rsp), %ecx
	movl	$1, %eax
	shlq	%cl, %rax
	movq	%rax, 176(%rsp)
	.p2align	4
.LBB244be253_19:
	testq	%r12, %r12
	je	.LBB244be253_27
	decq	%r12
	movl	(%r14), %r15d
	addq	$4, %r14
	testl	%r15d, %r15d
	je	.LBB244be253_19
	leaq	120(%rsp), %rdi
	movq	%rsi, %rbx
	movl	%r15d, %esi
	callq	hll_coupons.list.List.contains.309f015d8caa795c
	movq	%rbx, %rsi
	testb	%al, %al
	jne	.LBB244be253_19
	xorb	$1, %al
	movzbl	%al, %eax
	addq	%rsi, %rax
	cmpq	%rax, 176(%rsp)
	jb	.LBB244be253_19
	cmpb	$0, 136(%rsp)
	je	.LBB244be253_24
	movq	144(%rsp), %rax
	movl	%r15d, (%rax,%rsi,4)
	jmp	.LBB244be253_26
.LBB244be253_24:
	movl	%r15d, 140(%rsp,%rsi,4)
.LBB244be253_26:
	movq	128(%rsp), %rsi
	incq	%rsi
	movq	%rsi, 128(%rsp)
	jmp	.LBB244be253_18
.LBB244be253_27:
	movq	120(%rsp), %rax
	movzbl	136(%rsp), %ecx
	movdqu	(%rbp), %xmm0
	movdqu	16(%rbp), %xmm1
	movdqa	%xmm0, 288(%rsp)
	movdqa	%xmm1, 304(%rsp)
	movq	%rax, 16(%rsp)
	movq	%rsi, 24(%rsp)
	movl	%ecx, 32(%rsp)
	movdqu	%xmm1, 52(%rsp)
	movdqu	%xmm0, 36(%rsp)
	movl	$0, 68(%rsp)
	movl	96(%rsp), %eax
	movb	%al, 72(%rsp)
	pxor	%xmm0, %xmm0
	movdqu	%xmm0, 73(%rsp)
	movq	$0, 88(%rsp)
	xorl	%eax, %eax
.LBB244be253_30:
	xorl	%ecx, %ecx
	xorl	%edx, %edx
	jmp	.LBB244be253_11
.LBB244be253_3:
	movq	%rdi, %r8
	andq	$-16, %r8
	leaq	5(%r8), %rcx
	movq	%rax, %xmm0
	pshufd	$68, %xmm0, %xmm0
	movdqa	%xmm0, 256(%rsp)
	leaq	-16(%r8), %r9
	movdqa	.LCPI244be253_0(%rip), %xmm5
	movdqa	.LCPI244be253_1(%rip), %xmm15
	movdqa	.LCPI244be253_2(%rip), %xmm0
	movdqa	%xmm0, 96(%rsp)
	movdqa	.LCPI244be253_3(%rip), %xmm6
	movdqa	.LCPI244be253_4(%rip), %xmm7
	movdqa	.LCPI244be253_5(%rip), %xmm8
	movdqa	.LCPI244be253_6(%rip), %xmm9
	movdqa	.LCPI244be253_7(%rip), %xmm10
	movl	$11, %r10d
	.p2align	4
.LBB244be253_4:
	movdqa	%xmm15, 272(%rsp)
	movdqa	%xmm5, 176(%rsp)
	movdqa	.LCPI244be253_8(%rip), %xmm11
	movdqa	%xmm11, %xmm0
	psllq	%xmm10, %xmm0
	pshufd	$238, %xmm10, %xmm1
	movdqa	%xmm11, %xmm12
	psllq	%xmm1, %xmm12
	pblendw	$15, %xmm0, %xmm12
	movdqa	%xmm11, %xmm0
	psllq	%xmm9, %xmm0
	pshufd	$238, %xmm9, %xmm1
	movdqa	%xmm11, %xmm2
	psllq	%xmm1, %xmm2
	pblendw	$15, %xmm0, %xmm2
	movdqa	%xmm11, %xmm0
	psllq	%xmm8, %xmm0
	pshufd	$238, %xmm8, %xmm1
	movdqa	%xmm11, %xmm13
	psllq	%xmm1, %xmm13
	pblendw	$15, %xmm0, %xmm13
	movdqa	%xmm11, %xmm0
	psllq	%xmm7, %xmm0
	pshufd	$238, %xmm7, %xmm1
	movdqa	%xmm11, %xmm3
	psllq	%xmm1, %xmm3
	pblendw	$15, %xmm0, %xmm3
	movdqa	%xmm11, %xmm0
	psllq	%xmm6, %xmm0
	pshufd	$238, %xmm6, %xmm1
	movdqa	%xmm11, %xmm14
	psllq	%xmm1, %xmm14
	pblendw	$15, %xmm0, %xmm14
	movdqa	%xmm11, %xmm1
	movdqa	96(%rsp), %xmm0
	psllq	%xmm0, %xmm1
	pshufd	$238, %xmm0, %xmm4
	movdqa	%xmm11, %xmm0
	psllq	%xmm4, %xmm0
	pblendw	$15, %xmm1, %xmm0
	movdqa	%xmm11, %xmm1
	psllq	%xmm15, %xmm1
	pshufd	$238, %xmm15, %xmm4
	movdqa	%xmm11, %xmm15
	psllq	%xmm4, %xmm15
	pblendw	$15, %xmm1, %xmm15
	movdqa	%xmm11, %xmm1
	psllq	%xmm5, %xmm1
	pshufd	$238, %xmm5, %xmm4
	psllq	%xmm4, %xmm11
	pblendw	$15, %xmm1, %xmm11
	psrlq	$2, %xmm0
	psrlq	$2, %xmm14
	psrlq	$2, %xmm3
	psrlq	$2, %xmm13
	psrlq	$2, %xmm2
	psrlq	$2, %xmm12
	movdqa	.LCPI244be253_9(%rip), %xmm5
	por	%xmm5, %xmm12
	movdqa	256(%rsp), %xmm1
	pxor	%xmm5, %xmm1
	movdqa	%xmm1, %xmm4
	pcmpgtq	%xmm12, %xmm4
	por	%xmm5, %xmm2
	movdqa	%xmm1, %xmm12
	pcmpgtq	%xmm2, %xmm12
	packssdw	%xmm12, %xmm4
	pcmpeqd	%xmm2, %xmm2
	por	%xmm5, %xmm13
	movdqa	%xmm1, %xmm12
	pcmpgtq	%xmm13, %xmm12
	por	%xmm5, %xmm3
	movdqa	%xmm1, %xmm13
	pcmpgtq	%xmm3, %xmm13
	movdqa	%xmm4, %xmm3
	pxor	%xmm2, %xmm3
	packssdw	%xmm13, %xmm12
	movdqa	%xmm12, %xmm13
	pxor	%xmm2, %xmm13
	packssdw	%xmm13, %xmm3
	por	%xmm5, %xmm14
	movdqa	%xmm1, %xmm13
	pcmpgtq	%xmm14, %xmm13
	por	%xmm5, %xmm0
	movdqa	%xmm1, %xmm14
	pcmpgtq	%xmm0, %xmm14
	psrlq	$2, %xmm15
	packssdw	%xmm14, %xmm13
	por	%xmm5, %xmm15
	movdqa	%xmm1, %xmm0
	pcmpgtq	%xmm15, %xmm0
	movdqa	272(%rsp), %xmm15
	psrlq	$2, %xmm11
	por	%xmm5, %xmm11
	movdqa	176(%rsp), %xmm5
	pcmpgtq	%xmm11, %xmm1
	packssdw	%xmm1, %xmm0
	movdqa	%xmm13, %xmm1
	pxor	%xmm2, %xmm1
	pxor	%xmm0, %xmm2
	packssdw	%xmm2, %xmm1
	packsswb	%xmm1, %xmm3
	pmovmskb	%xmm3, %ebp
	leaq	-16(%r10), %r11
	testl	%ebp, %ebp
	jne	.LBB244be253_6
	addq	%r9, %r10
	movdqa	.LCPI244be253_10(%rip), %xmm1
	paddq	%xmm1, %xmm10
	paddq	%xmm1, %xmm9
	paddq	%xmm1, %xmm8
	paddq	%xmm1, %xmm7
	paddq	%xmm1, %xmm6
	movdqa	96(%rsp), %xmm2
	paddq	%xmm1, %xmm2
	movdqa	%xmm2, 96(%rsp)
	paddq	%xmm1, %xmm15
	paddq	%xmm1, %xmm5
	cmpq	$11, %r10
	movq	%r11, %r10
	jne	.LBB244be253_4
.LBB244be253_6:
	testw	%bp, %bp
	je	.LBB244be253_7
	pcmpeqd	%xmm1, %xmm1
	pxor	%xmm1, %xmm4
	pxor	%xmm1, %xmm12
	packssdw	%xmm12, %xmm4
	pxor	%xmm1, %xmm13
	pxor	%xmm1, %xmm0
	packssdw	%xmm0, %xmm13
	packsswb	%xmm13, %xmm4
	pand	.LCPI244be253_11(%rip), %xmm4
	pextrb	$1, %xmm4, %eax
	movd	%xmm4, %ecx
	cmpb	%al, %cl
	cmoval	%ecx, %eax
	pextrb	$2, %xmm4, %ecx
	cmpb	%cl, %al
	cmovbel	%ecx, %eax
	pextrb	$3, %xmm4, %ecx
	cmpb	%cl, %al
	cmovbel	%ecx, %eax
	pextrb	$4, %xmm4, %ecx
	cmpb	%cl, %al
	cmovbel	%ecx, %eax
	pextrb	$5, %xmm4, %ecx
	cmpb	%cl, %al
	cmovbel	%ecx, %eax
	pextrb	$6, %xmm4, %ecx
	cmpb	%cl, %al
	cmovbel	%ecx, %eax
	pextrb	$7, %xmm4, %ecx
	cmpb	%cl, %al
	cmovbel	%ecx, %eax
	pextrb	$8, %xmm4, %ecx
	cmpb	%cl, %al
	cmovbel	%ecx, %eax
	pextrb	$9, %xmm4, %ecx
	cmpb	%cl, %al
	cmovbel	%ecx, %eax
	pextrb	$10, %xmm4, %ecx
	cmpb	%cl, %al
	cmovbel	%ecx, %eax
	pextrb	$11, %xmm4, %ecx
	cmpb	%cl, %al
	cmovbel	%ecx, %eax
	pextrb	$12, %xmm4, %ecx
	cmpb	%cl, %al
	cmovbel	%ecx, %eax
	pextrb	$13, %xmm4, %ecx
	cmpb	%cl, %al
	cmovbel	%ecx, %eax
	pextrb	$14, %xmm4, %ecx
	cmpb	%cl, %al
	cmovbel	%ecx, %eax
	pextrb	$15, %xmm4, %ecx
	cmpb	%cl, %al
	cmovbel	%ecx, %eax
	movb	$16, %cl
	subb	%al, %cl
	movzbl	%cl, %ecx
	subq	%r11, %rcx
	pxor	%xmm0, %xmm0
.LBB244be253_13:
	cmpq	$3, %rcx
	je	.LBB244be253_14
	movzbl	%cl, %esi
	leaq	192(%rsp), %rdi
	movq	%r14, %rdx
	callq	hll_coupons.hash_set.HashSet.from_container.8a2f8b2564a2651f
	cmpb	$0, 192(%rsp)
	je	.LBB244be253_29
	movzbl	193(%rsp), %eax
	movb	$1, (%r13)
	movb	%al, 1(%r13)
	pxor	%xmm0, %xmm0
	movdqu	%xmm0, 8(%r13)
	movdqu	%xmm0, 24(%r13)
	movdqu	%xmm0, 40(%r13)
	movdqu	%xmm0, 56(%r13)
	movdqu	%xmm0, 72(%r13)
	movq	$0, 88(%r13)
	jmp	.LBB244be253_32
.LBB244be253_7:
	cmpl	%r8d, %edi
	pxor	%xmm0, %xmm0
	jne	.LBB244be253_8
.LBB244be253_10:
	movzbl	%sil, %esi
	movzbl	%r15b, %edx
	movq	%rsp, %rdi
	movq	%r14, %rcx
	xorl	%r8d, %r8d
	xorl	%r9d, %r9d
	callq	hll_sketch.promotion.mode_of_table.8a2f8b2564a2651f
	movzbl	(%rsp), %edx
	movzbl	1(%rsp), %ecx
	movzbl	8(%rsp), %eax
.LBB244be253_11:
	movb	%dl, (%r13)
	movb	%cl, 1(%r13)
	movq	%rax, 8(%r13)
	movq	16(%rsp), %rax
	movq	24(%rsp), %rcx
	movaps	32(%rsp), %xmm0
	movdqa	48(%rsp), %xmm1
	movq	64(%rsp), %rdx
	movzbl	72(%rsp), %esi
	movl	73(%rsp), %edi
	movzwl	77(%rsp), %r8d
	movzbl	79(%rsp), %r9d
	movq	%rax, 16(%r13)
	movq	%rcx, 24(%r13)
	movups	%xmm0, 32(%r13)
	movdqu	%xmm1, 48(%r13)
	movq	%rdx, 64(%r13)
	movb	%sil, 72(%r13)
	movl	%edi, 73(%r13)
	movw	%r8w, 77(%r13)
	movb	%r9b, 79(%r13)
	movdqa	80(%rsp), %xmm0
	movdqu	%xmm0, 80(%r13)
.LBB244be253_32:
	addq	$328, %rsp
	popq	%rbx
	popq	%r12
	popq	%r13
	popq	%r14
	popq	%r15
	popq	%rbp
	retq
.LBB244be253_29:
	movzbl	216(%rsp), %eax
	movups	200(%rsp), %xmm0
	movups	220(%rsp), %xmm1
	movups	236(%rsp), %xmm2
	movaps	%xmm0, 16(%rsp)
	movl	%eax, 32(%rsp)
	movups	%xmm1, 36(%rsp)
	movups	%xmm2, 52(%rsp)
	movl	$0, 68(%rsp)
	movb	%r15b, 72(%rsp)
	xorps	%xmm0, %xmm0
	movups	%xmm0, 73(%rsp)
	movq	$0, 88(%rsp)
	movl	$1, %eax
	jmp	.LBB244be253_30
.Lfunc_end244be253:
	.size	hll_sketch.folding.mode_of_coupons.8a2f8b2564a2651f, .Lfunc_end244be253-hll_sketch.folding.mode_of_coupons.8a2f8b2564a2651f

	.section	.text.hll_coupons.container.Container.image.8a2f8b2564a2651f,"ax",@progbits
	.p2align	4
	.type	hll_coupons.container.Container.image.8a2f8b2564a2651f,@function
hll_coupons.container.Container.image.8a2f8b2564a2651f:
	pushq	%rbp
	pushq	%r15
	pushq	%r14
	pushq	%r13
	pushq	%r12
	pushq	%rbx
	subq	$152, %rsp
	movq	%rcx, %r12
	movq	%rdx, %r15
	movq	%rdi, %rbx
	xorps	%xmm0, %xmm0
	movaps	%xmm0, 96(%rsp)
	movaps	%xmm0, 80(%rsp)
	movaps	%xmm0, 112(%rsp)
	movups	%xmm0, 126(%rsp)
	leaq	80(%rsp), %rdi
	callq	hll_coupons.container.Container.ascending.9bc580afffac16c1
	cmpb	$0, 80(%rsp)
	je	.LBB37505008_1
	movzbl	81(%rsp), %eax
	movb	$1, (%rbx)
	movb	%al, 1(%rbx)
	jmp	.LBB37505008_17
.LBB37505008_1:
	movq	88(%rsp), %r14
	movq	96(%rsp), %rbp
	movq	104(%rsp), %rax
	leaq	(,%rbp,4), %r13
	addq	%r12, %r13
	movq	%rax, 48(%rsp)
	je	.LBB37505008_2
	js	.LBB37505008_14
	movl	$1, %esi
	movq	%r13, %rdi
	callq	rattle_alloc@PLT
	testb	$1, %al
	movq	48(%rsp), %rax
	jne	.LBB37505008_5
.LBB37505008_14:
	testq	%rax, %rax
	je	.LBB37505008_16
.LBB37505008_15:
	movq	%r14, %rdi
	callq	rattle_dealloc@PLT
.LBB37505008_16:
	movw	$3073, (%rbx)
.LBB37505008_17:
	xorps	%xmm0, %xmm0
	movups	%xmm0, 8(%rbx)
	movq	$0, 24(%rbx)
	jmp	.LBB37505008_35
.LBB37505008_2:
	leaq	15(%rsp), %rdx
.LBB37505008_5:
	movq	%rdx, 56(%rsp)
	movq	$0, 64(%rsp)
	movq	%r13, 72(%rsp)
	cmpq	%r13, %r12
	ja	.LBB37505008_7
	xorl	%ecx, %ecx
.LBB37505008_9:
	leaq	(%rcx,%r12), %r8
	leaq	(%rdx,%rcx), %rdi
	movq	%rdi, %rax
	subq	%r15, %rax
	cmpq	%r12, %rax
	jae	.LBB37505008_25
	movl	%r12d, %eax
	andl	$3, %eax
	andl	$12, %r12d
	addq	%rcx, %rdx
	addq	$3, %rdx
	xorl	%ecx, %ecx
	.p2align	4
.LBB37505008_11:
	movzbl	(%r15,%rcx), %esi
	movb	%sil, -3(%rdx,%rcx)
	movzbl	1(%r15,%rcx), %esi
	movb	%sil, -2(%rdx,%rcx)
	movzbl	2(%r15,%rcx), %esi
	movb	%sil, -1(%rdx,%rcx)
	movzbl	3(%r15,%rcx), %esi
	movb	%sil, (%rdx,%rcx)
	addq	$4, %rcx
	cmpq	%rcx, %r12
	jne	.LBB37505008_11
	testq	%rax, %rax
	je	.LBB37505008_26
	.p2align	4
.LBB37505008_13:
	movzbl	(%r15,%rcx), %edx
	movb	%dl, (%rdi,%rcx)
	incq	%rcx
	decq	%rax
	jne	.LBB37505008_13
	jmp	.LBB37505008_26
.LBB37505008_25:
	movq	%r15, %rsi
	movq	%r12, %rdx
	movq	%r8, %r15
	callq	memmove@PLT
	movq	%r15, %r8
.LBB37505008_26:
	movq	%r8, 64(%rsp)
	movq	%r13, 72(%rsp)
	movq	%r13, 32(%rsp)
	movq	56(%rsp), %rax
	movq	%rax, 16(%rsp)
	movq	64(%rsp), %rax
	movq	%rax, 24(%rsp)
	testq	%rbp, %rbp
	je	.LBB37505008_32
	movq	24(%rsp), %rax
	movq	32(%rsp), %rcx
	xorl	%r15d, %r15d
	jmp	.LBB37505008_28
	.p2align	4
.LBB37505008_31:
	movq	16(%rsp), %rdx
	movl	%r12d, (%rdx,%rax)
	addq	$4, %rax
	movq	%rax, 24(%rsp)
	movq	%rcx, 32(%rsp)
	incq	%r15
	cmpq	%r15, %rbp
	je	.LBB37505008_32
.LBB37505008_28:
	movl	(%r14,%r15,4), %r12d
	movq	%rcx, %rdx
	subq	%rax, %rdx
	cmpq	$3, %rdx
	ja	.LBB37505008_31
	leaq	16(%rsp), %rdi
	movl	$4, %esi
	callq	std_alloc.vec.Vec.grow_amortized.e3d5df6901cfba47
	testb	%al, %al
	je	.LBB37505008_18
	movq	24(%rsp), %rax
	movq	32(%rsp), %rcx
	jmp	.LBB37505008_31
.LBB37505008_32:
	leaq	118(%rsp), %r15
	movq	32(%rsp), %rax
	movq	%rax, 134(%rsp)
	movq	16(%rsp), %rax
	movq	%rax, 118(%rsp)
	movq	24(%rsp), %rax
	movq	%rax, 126(%rsp)
	cmpq	$0, 48(%rsp)
	je	.LBB37505008_34
	movq	%r14, %rdi
	callq	rattle_dealloc@PLT
.LBB37505008_34:
	movw	$0, (%rbx)
	movups	(%r15), %xmm0
	movups	%xmm0, 8(%rbx)
	movq	16(%r15), %rax
	movq	%rax, 24(%rbx)
.LBB37505008_35:
	addq	$152, %rsp
	popq	%rbx
	popq	%r12
	popq	%r13
	popq	%r14
	popq	%r15
	popq	%rbp
	retq
.LBB37505008_7:
	leaq	56(%rsp), %rdi
	movq	%r12, %rsi
	callq	std_alloc.vec.Vec.grow_amortized.e3d5df6901cfba47
	testb	%al, %al
	je	.LBB37505008_22
	movq	56(%rsp), %rdx
	movq	64(%rsp), %rcx
	movq	72(%rsp), %r13
	jmp	.LBB37505008_9
.LBB37505008_18:
	cmpq	$0, 32(%rsp)
	je	.LBB37505008_21
	movq	16(%rsp), %rdi
	jmp	.LBB37505008_20
.LBB37505008_22:
	cmpq	$0, 72(%rsp)
	je	.LBB37505008_21
	movq	56(%rsp), %rdi
.LBB37505008_20:
	callq	rattle_dealloc@PLT
.LBB37505008_21:
	cmpq	$0, 48(%rsp)
	jne	.LBB37505008_15
	jmp	.LBB37505008_16
.Lfunc_end37505008:
	.size	hll_coupons.container.Container.image.8a2f8b2564a2651f, .Lfunc_end37505008-hll_coupons.container.Container.image.8a2f8b2564a2651f

	.section	.text.hll_registers.preamble.Preamble.start_image.309f015d8caa795c,"ax",@progbits
	.p2align	4
	.type	hll_registers.preamble.Preamble.start_image.309f015d8caa795c,@function
hll_registers.preamble.Preamble.start_image.309f015d8caa795c:
	pushq	%rbp
	pushq	%r15
	pushq	%r14
	pushq	%r13
	pushq	%r12
	pushq	%rbx
	subq	$104, %rsp
	movq	%rcx, %r14
	movl	%edx, %r15d
	movq	%rdi, %rbx
	movups	(%rsi), %xmm0
	movq	16(%rsi), %r12
	movq	24(%rsi), %rbp
	movq	32(%rsi), %r13
	testq	%rcx, %rcx
	je	.LBBd4810de0_1
	js	.LBBd4810de0_14
	movl	$1, %esi
	movq	%r14, %rdi
	movaps	%xmm0, 80(%rsp)
	callq	rattle_alloc@PLT
	movaps	80(%rsp), %xmm0
	testb	$1, %al
	jne	.LBBd4810de0_4
.LBBd4810de0_14:
	movw	$3073, (%rbx)
	xorps	%xmm0, %xmm0
	movups	%xmm0, 8(%rbx)
	movq	$0, 24(%rbx)
	jmp	.LBBd4810de0_15
.LBBd4810de0_1:
	leaq	15(%rsp), %rdx
.LBBd4810de0_4:
	movq	%rdx, 16(%rsp)
	movq	$0, 24(%rsp)
	movq	%r14, 32(%rsp)
	movl	%r15d, %eax
	shrl	$16, %eax
	movl	%r15d, %ecx
	shrl	$24, %ecx
	shll	$4, %ebp
	andl	$16, %ebp
	addl	%eax, %ebp
	movl	%r15d, %eax
	shrl	$6, %eax
	andl	$12, %eax
	orl	$2, %eax
	shlq	$56, %rax
	shlq	$48, %rcx
	orq	%rax, %rcx
	movzbl	%bpl, %eax
	shlq	$40, %rax
	orq	%rcx, %rax
	shll	$24, %r15d
	addq	%r15, %rax
	addq	$459018, %rax
	movq	%rax, 40(%rsp)
	movups	%xmm0, 48(%rsp)
	movq	%r12, 64(%rsp)
	movq	%r13, 72(%rsp)
	cmpq	$39, %r14
	jbe	.LBBd4810de0_6
	xorl	%eax, %eax
.LBBd4810de0_8:
	addq	%rax, %rdx
	addq	$40, %rax
	leaq	40(%rsp), %rcx
	movq	%rdx, %rsi
	subq	%rcx, %rsi
	cmpq	$39, %rsi
	ja	.LBBd4810de0_11
	movq	72(%rsp), %rcx
	movq	%rcx, 32(%rdx)
	movups	40(%rsp), %xmm0
	movups	56(%rsp), %xmm1
	jmp	.LBBd4810de0_10
.LBBd4810de0_11:
	movups	40(%rsp), %xmm0
	movups	56(%rsp), %xmm1
	movq	72(%rsp), %rcx
	movq	%rcx, 32(%rdx)
.LBBd4810de0_10:
	movups	%xmm1, 16(%rdx)
	movups	%xmm0, (%rdx)
	movq	%rax, 24(%rsp)
	movq	%r14, 32(%rsp)
	movw	$0, (%rbx)
	movq	16(%rsp), %rax
	movq	%rax, 8(%rbx)
	movq	24(%rsp), %rax
	movq	%rax, 16(%rbx)
	movq	32(%rsp), %rax
	movq	%rax, 24(%rbx)
.LBBd4810de0_15:
	addq	$104, %rsp
	popq	%rbx
	popq	%r12
	popq	%r13
	popq	%r14
	popq	%r15
	popq	%rbp
	retq
.LBBd4810de0_6:
	leaq	16(%rsp), %rdi
	movl	$40, %esi
	callq	std_alloc.vec.Vec.grow_amortized.e3d5df6901cfba47
	testb	%al, %al
	je	.LBBd4810de0_12
	movq	16(%rsp), %rdx
	movq	24(%rsp), %rax
	movq	32(%rsp), %r14
	jmp	.LBBd4810de0_8
.LBBd4810de0_12:
	cmpq	$0, 32(%rsp)
	je	.LBBd4810de0_14
	movq	16(%rsp), %rdi
	callq	rattle_dealloc@PLT
	jmp	.LBBd4810de0_14
.Lfunc_endd4810de0:
	.size	hll_registers.preamble.Preamble.start_image.309f015d8caa795c, .Lfunc_endd4810de0-hll_registers.preamble.Preamble.start_image.309f015d8caa795c

	.section	.text.hll_text.refusal.write_number.03326aa510967ad1,"ax",@progbits
	.p2align	4
	.type	hll_text.refusal.write_number.03326aa510967ad1,@function
hll_text.refusal.write_number.03326aa510967ad1:
	pushq	%rbx
	subq	$96, %rsp
	movq	%rdi, %rbx
	movb	$0, 6(%rsp)
	movw	$0, 4(%rsp)
	movabsq	$-3689348814741910323, %rcx
	movq	%rsi, %rax
	mulq	%rcx
	shrq	$3, %rdx
	leal	(%rdx,%rdx), %eax
	leal	(%rax,%rax,4), %eax
	movl	%esi, %ecx
	subl	%eax, %ecx
	orb	$48, %cl
	movb	%cl, 3(%rsp)
	cmpq	$10, %rsi
	jb	.LBB99ff8a6f_1
	leaq	4(%rsp), %rdi
	movq	%rdx, %rsi
	callq	hll_text.refusal.write_number.03326aa510967ad1
	cmpb	$0, 4(%rsp)
	je	.LBB99ff8a6f_1
	movzwl	5(%rsp), %eax
	movb	$1, (%rbx)
	movw	%ax, 1(%rbx)
	addq	$96, %rsp
	popq	%rbx
	retq
.LBB99ff8a6f_1:
	leaq	3(%rsp), %rsi
	movl	$1, %edx
	movl	$2, %edi
	callq	write@PLT
	testq	%rax, %rax
	js	.LBB99ff8a6f_3
	xorl	%edx, %edx
	testq	%rax, %rax
	sete	%cl
	movl	$7, %eax
	cmovnel	%edx, %eax
	jmp	.LBB99ff8a6f_4
.LBB99ff8a6f_3:
	leaq	8(%rsp), %rdi
	callq	std_io.io.error.last_error
	movb	$7, %al
	movb	$1, %cl
.LBB99ff8a6f_4:
	movb	%cl, (%rbx)
	movb	%al, 1(%rbx)
	movb	$0, 2(%rbx)
	addq	$96, %rsp
	popq	%rbx
	retq
.Lfunc_end99ff8a6f:
	.size	hll_text.refusal.write_number.03326aa510967ad1, .Lfunc_end99ff8a6f-hll_text.refusal.write_number.03326aa510967ad1

	.section	.rodata.cst16,"aM",@progbits,16
	.p2align	4, 0x0
.LCPI0d6e4079_0:
	.byte	116
	.byte	104
	.byte	105
	.byte	115
	.byte	32
	.byte	109
	.byte	97
	.byte	99
	.byte	104
	.byte	105
	.byte	110
	.byte	101
	.byte	32
	.byte	108
	.byte	97
	.byte	99
.LCPI0d6e4079_1:
	.byte	107
	.byte	115
	.byte	32
	.byte	97
	.byte	32
	.byte	102
	.byte	101
	.byte	97
	.byte	116
	.byte	117
	.byte	114
	.byte	101
	.byte	32
	.byte	111
	.byte	102
	.byte	32
.LCPI0d6e4079_2:
	.byte	120
	.byte	56
	.byte	54
	.byte	45
	.byte	54
	.byte	52
	.byte	45
	.byte	118
	.byte	50
	.byte	44
	.byte	32
	.byte	119
	.byte	104
	.byte	105
	.byte	99
	.byte	104
.LCPI0d6e4079_3:
	.byte	32
	.byte	116
	.byte	104
	.byte	105
	.byte	115
	.byte	32
	.byte	112
	.byte	114
	.byte	111
	.byte	103
	.byte	114
	.byte	97
	.byte	109
	.byte	32
	.byte	119
	.byte	97
.LCPI0d6e4079_4:
	.byte	115
	.byte	32
	.byte	98
	.byte	117
	.byte	105
	.byte	108
	.byte	116
	.byte	32
	.byte	102
	.byte	111
	.byte	114
	.byte	58
	.byte	32
	.byte	114
	.byte	117
	.byte	110
.LCPI0d6e4079_5:
	.byte	32
	.byte	105
	.byte	116
	.byte	32
	.byte	111
	.byte	110
	.byte	32
	.byte	97
	.byte	110
	.byte	111
	.byte	116
	.byte	104
	.byte	101
	.byte	114
	.byte	32
	.byte	109
.LCPI0d6e4079_6:
	.byte	97
	.byte	99
	.byte	104
	.byte	105
	.byte	110
	.byte	101
	.byte	44
	.byte	32
	.byte	111
	.byte	114
	.byte	32
	.byte	98
	.byte	117
	.byte	105
	.byte	108
	.byte	100
.LCPI0d6e4079_7:
	.byte	32
	.byte	105
	.byte	116
	.byte	32
	.byte	119
	.byte	105
	.byte	116
	.byte	104
	.byte	32
	.byte	45
	.byte	45
	.byte	99
	.byte	112
	.byte	117
	.byte	32
	.byte	120
	.section	.text.main,"ax",@progbits
	.globl	main
	.p2align	4
	.type	main,@function
main:
	pushq	%rbp
	movq	%rsp, %rbp
	pushq	%rbx
	pushq	%rax
	movl	$1, %esi
	movl	$13, %edi
	callq	__sysv_signal@PLT
	xorl	%edi, %edi
	callq	__x86_get_cpuid_feature_leaf@PLT
	movl	24(%rax), %ebx
	movl	$2, %edi
	callq	__x86_get_cpuid_feature_leaf@PLT
	notl	%ebx
	testl	$9970177, %ebx
	jne	.LBB0d6e4079_2
	movl	24(%rax), %eax
	andl	$1, %eax
	je	.LBB0d6e4079_2
	leaq	-8(%rbp), %rsp
	popq	%rbx
	popq	%rbp
	jmp	hll_program.main.start
.LBB0d6e4079_2:
	movq	%rsp, %rsi
	subq	$144, %rsi
	cmpq	%rsp, %rsi
	jge	.LBB0d6e4079_5
.LBB0d6e4079_4:
	xorq	$0, (%rsp)
	subq	$3072, %rsp
	cmpq	%rsp, %rsi
	jl	.LBB0d6e4079_4
.LBB0d6e4079_5:
	movq	%rsi, %rsp
	movaps	.LCPI0d6e4079_0(%rip), %xmm0
	movaps	%xmm0, (%rsi)
	movaps	.LCPI0d6e4079_1(%rip), %xmm0
	movaps	%xmm0, 16(%rsi)
	movaps	.LCPI0d6e4079_2(%rip), %xmm0
	movaps	%xmm0, 32(%rsi)
	movaps	.LCPI0d6e4079_3(%rip), %xmm0
	movaps	%xmm0, 48(%rsi)
	movaps	.LCPI0d6e4079_4(%rip), %xmm0
	movaps	%xmm0, 64(%rsi)
	movaps	.LCPI0d6e4079_5(%rip), %xmm0
	movaps	%xmm0, 80(%rsi)
	movaps	.LCPI0d6e4079_6(%rip), %xmm0
	movaps	%xmm0, 96(%rsi)
	movaps	.LCPI0d6e4079_7(%rip), %xmm0
	movaps	%xmm0, 112(%rsi)
	movl	$908932664, 128(%rsi)
	movw	$2612, 132(%rsi)
	movl	$134, %edx
	movl	$2, %edi
	callq	__write@PLT
	movl	$127, %eax
	leaq	-8(%rbp), %rsp
	popq	%rbx
	popq	%rbp
	retq
.Lfunc_end0d6e4079:
	.size	main, .Lfunc_end0d6e4079-main

	.type	.Lstatic.1,@object
	.section	.rodata..Lstatic.1,"a",@progbits
.Lstatic.1:
	.ascii	"image "
	.size	.Lstatic.1, 6

	.type	.Lstatic.2,@object
	.section	.rodata..Lstatic.2,"a",@progbits
	.p2align	2, 0x0
.Lstatic.2:
	.asciz	"\200\226\230\000@B\017\000\240\206\001\000\020'\000\000\350\003\000\000d\000\000\000\n\000\000\000\001\000\000\000\000\000\000\000\000\000\000\000\000\000\000\000\000\000\000\000\000\000\000\000\000\000\000\000\000\000\000\000\000\000\000"
	.size	.Lstatic.2, 64

	.type	.Lstatic.4,@object
	.section	.rodata..Lstatic.4,"a",@progbits
.Lstatic.4:
	.ascii	"image"
	.size	.Lstatic.4, 5

	.type	.Lstatic.5,@object
	.section	.rodata..Lstatic.5,"a",@progbits
.Lstatic.5:
	.ascii	"coupon"
	.size	.Lstatic.5, 6

	.type	.Lstatic.6,@object
	.section	.rodata..Lstatic.6,"a",@progbits
.Lstatic.6:
	.ascii	"union"
	.size	.Lstatic.6, 5

	.type	.Lstatic.7,@object
	.section	.rodata.cst4,"aM",@progbits,4
.Lstatic.7:
	.ascii	"fold"
	.size	.Lstatic.7, 4

	.type	.Lstatic.9,@object
	.section	.rodata..Lstatic.9,"a",@progbits
.Lstatic.9:
	.byte	10
	.size	.Lstatic.9, 1

	.type	.Lstatic.10,@object
	.section	.rodata.cst16,"aM",@progbits,16
.Lstatic.10:
	.ascii	"0123456789abcdef"
	.size	.Lstatic.10, 16

	.type	.Lstatic.11,@object
	.section	.rodata..Lstatic.11,"a",@progbits
.Lstatic.11:
	.ascii	"line "
	.size	.Lstatic.11, 5

	.type	.Lstatic.12,@object
	.section	.rodata..Lstatic.12,"a",@progbits
.Lstatic.12:
	.ascii	": "
	.size	.Lstatic.12, 2

	.type	.Lstatic.13,@object
	.section	.rodata..Lstatic.13,"a",@progbits
.Lstatic.13:
	.ascii	"syntax"
	.size	.Lstatic.13, 6

	.type	.Lstatic.14,@object
	.section	.rodata..Lstatic.14,"a",@progbits
.Lstatic.14:
	.ascii	"range"
	.size	.Lstatic.14, 5

	.type	.Lstatic.15,@object
	.section	.rodata..Lstatic.15,"a",@progbits
.Lstatic.15:
	.ascii	"hex"
	.size	.Lstatic.15, 3

	.type	.Lstatic.16,@object
	.section	.rodata..Lstatic.16,"a",@progbits
.Lstatic.16:
	.ascii	"stack"
	.size	.Lstatic.16, 5

	.type	.Lstatic.17,@object
	.section	.rodata..Lstatic.17,"a",@progbits
.Lstatic.17:
	.ascii	"memory"
	.size	.Lstatic.17, 6

	.type	.Lstatic.18,@object
	.section	.rodata.cst4,"aM",@progbits,4
.Lstatic.18:
	.ascii	"read"
	.size	.Lstatic.18, 4

	.type	.Lstatic.19,@object
	.section	.rodata..Lstatic.19,"a",@progbits
.Lstatic.19:
	.ascii	"write"
	.size	.Lstatic.19, 5

	.type	.Lstatic.20,@object
	.section	.rodata..Lstatic.20,"a",@progbits
.Lstatic.20:
	.ascii	"truncated"
	.size	.Lstatic.20, 9

	.type	.Lstatic.21,@object
	.section	.rodata..Lstatic.21,"a",@progbits
.Lstatic.21:
	.ascii	"family"
	.size	.Lstatic.21, 6

	.type	.Lstatic.22,@object
	.section	.rodata..Lstatic.22,"a",@progbits
.Lstatic.22:
	.ascii	"version"
	.size	.Lstatic.22, 7

	.type	.Lstatic.23,@object
	.section	.rodata..Lstatic.23,"a",@progbits
.Lstatic.23:
	.ascii	"lgk"
	.size	.Lstatic.23, 3

	.type	.Lstatic.24,@object
	.section	.rodata..Lstatic.24,"a",@progbits
.Lstatic.24:
	.ascii	"width"
	.size	.Lstatic.24, 5

	.type	.Lstatic.25,@object
	.section	.rodata..Lstatic.25,"a",@progbits
.Lstatic.25:
	.ascii	"stage"
	.size	.Lstatic.25, 5

	.type	.Lstatic.26,@object
	.section	.rodata.cst8,"aM",@progbits,8
.Lstatic.26:
	.ascii	"preamble"
	.size	.Lstatic.26, 8

	.type	.Lstatic.27,@object
	.section	.rodata..Lstatic.27,"a",@progbits
.Lstatic.27:
	.ascii	"lgarr"
	.size	.Lstatic.27, 5

	.type	.Lstatic.28,@object
	.section	.rodata..Lstatic.28,"a",@progbits
.Lstatic.28:
	.ascii	"count"
	.size	.Lstatic.28, 5

	.type	.Lstatic.29,@object
	.section	.rodata.cst8,"aM",@progbits,8
.Lstatic.29:
	.ascii	"register"
	.size	.Lstatic.29, 8

	.type	.Lstatic.30,@object
.Lstatic.30:
	.ascii	"argument"
	.size	.Lstatic.30, 8

	.type	.Lswitch.table.hll_program.main.start,@object
	.section	.rodata..Lswitch.table.hll_program.main.start,"a",@progbits
	.p2align	3, 0x0
.Lswitch.table.hll_program.main.start:
	.quad	9
	.quad	6
	.quad	7
	.quad	3
	.quad	5
	.quad	5
	.quad	8
	.quad	5
	.quad	5
	.quad	6
	.quad	8
	.quad	8
	.quad	6
	.size	.Lswitch.table.hll_program.main.start, 104

	.type	.Lswitch.table.hll_program.main.start.327.rel,@object
	.section	.rodata..Lswitch.table.hll_program.main.start.327.rel,"a",@progbits
	.p2align	2, 0x0
.Lswitch.table.hll_program.main.start.327.rel:
	.long	.Lstatic.20-.Lswitch.table.hll_program.main.start.327.rel
	.long	.Lstatic.21-.Lswitch.table.hll_program.main.start.327.rel
	.long	.Lstatic.22-.Lswitch.table.hll_program.main.start.327.rel
	.long	.Lstatic.23-.Lswitch.table.hll_program.main.start.327.rel
	.long	.Lstatic.24-.Lswitch.table.hll_program.main.start.327.rel
	.long	.Lstatic.25-.Lswitch.table.hll_program.main.start.327.rel
	.long	.Lstatic.26-.Lswitch.table.hll_program.main.start.327.rel
	.long	.Lstatic.27-.Lswitch.table.hll_program.main.start.327.rel
	.long	.Lstatic.28-.Lswitch.table.hll_program.main.start.327.rel
	.long	.Lstatic.5-.Lswitch.table.hll_program.main.start.327.rel
	.long	.Lstatic.29-.Lswitch.table.hll_program.main.start.327.rel
	.long	.Lstatic.30-.Lswitch.table.hll_program.main.start.327.rel
	.long	.Lstatic.17-.Lswitch.table.hll_program.main.start.327.rel
	.size	.Lswitch.table.hll_program.main.start.327.rel, 52

	.ident	"rattle logic=dac8208d650f15bf3e2dc313a14fa4c783a3acf887bdfab66e1714b038d9e11b"
	.section	.note.GNU-stack,"",@progbits
