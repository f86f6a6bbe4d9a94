	.file	"rattle"
	.section	.rodata.cst16,"aM",@progbits,16
	.p2align	4, 0x0
.LCPI5ea25bc7_0:
	.zero	16,10
	.section	.text.hll_estimator_fields_program.main.start,"ax",@progbits
	.p2align	4
	.type	hll_estimator_fields_program.main.start,@function
hll_estimator_fields_program.main.start:
	pushq	%rbp
	pushq	%r15
	pushq	%r14
	pushq	%r13
	pushq	%r12
	pushq	%rbx
	movq	%rsp, %r11
	subq	$64512, %r11
.LBB5ea25bc7_1:
	subq	$3072, %rsp
	movq	$0, (%rsp)
	cmpq	%r11, %rsp
	jne	.LBB5ea25bc7_1
	subq	$1224, %rsp
	pxor	%xmm0, %xmm0
	movdqa	%xmm0, 80(%rsp)
	movdqu	%xmm0, 24(%rsp)
	movq	$0, 40(%rsp)
	movdqu	%xmm0, 56(%rsp)
	leaq	15(%rsp), %r12
	movq	%r12, 16(%rsp)
	movq	%r12, 48(%rsp)
	leaq	192(%rsp), %rdi
	xorl	%ebx, %ebx
	movl	$65536, %edx
	xorl	%esi, %esi
	callq	memset@PLT
	xorl	%r13d, %r13d
	xorl	%r15d, %r15d
	jmp	.LBB5ea25bc7_5
	.p2align	4
.LBB5ea25bc7_3:
	movq	%r14, %rsi
	movq	%r15, %rdx
	callq	memmove@PLT
.LBB5ea25bc7_4:
	addq	%r15, %r13
	movq	%r13, 24(%rsp)
	movq	%rbx, 32(%rsp)
	movq	72(%rsp), %r15
	cmpq	$-1, %r15
	je	.LBB5ea25bc7_75
.LBB5ea25bc7_5:
	incq	%r15
	leaq	192(%rsp), %r14
	movl	$65536, %edx
	xorl	%edi, %edi
	movq	%r14, %rsi
	callq	read@PLT
	testq	%rax, %rax
	js	.LBB5ea25bc7_74
	je	.LBB5ea25bc7_80
	movq	%r15, 72(%rsp)
	cmpq	$65536, %rax
	movl	$65536, %r15d
	cmovbq	%rax, %r15
.LBB5ea25bc7_8:
	movq	%r15, %rax
	shrq	$6, %rax
	je	.LBB5ea25bc7_12
	xorl	%ecx, %ecx
	.p2align	4
.LBB5ea25bc7_10:
	movdqu	(%r14,%rcx), %xmm0
	movdqu	16(%r14,%rcx), %xmm1
	movdqu	32(%r14,%rcx), %xmm2
	movdqu	48(%r14,%rcx), %xmm3
	movdqa	.LCPI5ea25bc7_0(%rip), %xmm4
	pcmpeqb	%xmm4, %xmm3
	pcmpeqb	%xmm4, %xmm2
	pcmpeqb	%xmm4, %xmm1
	pcmpeqb	%xmm4, %xmm0
	pmovmskb	%xmm0, %edx
	pmovmskb	%xmm1, %esi
	shll	$16, %esi
	orl	%edx, %esi
	pmovmskb	%xmm2, %edi
	shlq	$32, %rdi
	orq	%rsi, %rdi
	pmovmskb	%xmm3, %edx
	shlq	$48, %rdx
	orq	%rdi, %rdx
	jne	.LBB5ea25bc7_16
	addq	$64, %rcx
	decq	%rax
	jne	.LBB5ea25bc7_10
.LBB5ea25bc7_12:
	movq	%r15, %rax
	andq	$63, %rax
	je	.LBB5ea25bc7_47
	movq	%r15, %r12
	andq	$-64, %r12
	.p2align	4
.LBB5ea25bc7_14:
	cmpb	$10, (%r14,%r12)
	je	.LBB5ea25bc7_17
	incq	%r12
	decq	%rax
	jne	.LBB5ea25bc7_14
	jmp	.LBB5ea25bc7_47
	.p2align	4
.LBB5ea25bc7_16:
	rep		bsfq	%rdx, %r12
	addq	%rcx, %r12
.LBB5ea25bc7_17:
	movb	$0, 106(%rsp)
	movw	$0, 104(%rsp)
	movq	24(%rsp), %rbx
	movq	32(%rsp), %rbp
	movq	%rbp, %rax
	subq	%rbx, %rax
	cmpq	%rax, %r12
	ja	.LBB5ea25bc7_45
.LBB5ea25bc7_18:
	movq	16(%rsp), %r13
	leaq	(%rbx,%r13), %rdi
	movq	%rdi, %rax
	subq	%r14, %rax
	cmpq	%r12, %rax
	jae	.LBB5ea25bc7_21
	cmpq	$4, %r12
	jb	.LBB5ea25bc7_20
	cmpq	$32, %rax
	jae	.LBB5ea25bc7_24
.LBB5ea25bc7_20:
	xorl	%eax, %eax
.LBB5ea25bc7_33:
	movq	%r12, %rdx
	movq	%rax, %rcx
	andq	$3, %rdx
	je	.LBB5ea25bc7_36
	movq	%rax, %rcx
	.p2align	4
.LBB5ea25bc7_35:
	movzbl	(%r14,%rcx), %esi
	movb	%sil, (%rdi,%rcx)
	incq	%rcx
	decq	%rdx
	jne	.LBB5ea25bc7_35
.LBB5ea25bc7_36:
	subq	%r12, %rax
	cmpq	$-4, %rax
	ja	.LBB5ea25bc7_39
	leaq	(%rbx,%r13), %rax
	addq	$3, %rax
	.p2align	4
.LBB5ea25bc7_38:
	movzbl	(%r14,%rcx), %edx
	movb	%dl, -3(%rax,%rcx)
	movzbl	1(%r14,%rcx), %edx
	movb	%dl, -2(%rax,%rcx)
	movzbl	2(%r14,%rcx), %edx
	movb	%dl, -1(%rax,%rcx)
	movzbl	3(%r14,%rcx), %edx
	movb	%dl, (%rax,%rcx)
	addq	$4, %rcx
	cmpq	%rcx, %r12
	jne	.LBB5ea25bc7_38
	jmp	.LBB5ea25bc7_39
	.p2align	4
.LBB5ea25bc7_21:
	movq	%r14, %rsi
	movq	%r12, %rdx
	callq	memmove@PLT
.LBB5ea25bc7_39:
	addq	%r12, %rbx
	movq	%rbx, 24(%rsp)
	movq	%rbp, 32(%rsp)
	movq	40(%rsp), %rax
	incq	%rax
	movq	$-1, %rcx
	cmovneq	%rax, %rcx
	movq	%rcx, 40(%rsp)
	testq	%rbx, %rbx
	je	.LBB5ea25bc7_41
	leaq	-1(%rbx), %rcx
	cmpb	$13, -1(%r13,%rbx)
	cmovneq	%rbx, %rcx
	jmp	.LBB5ea25bc7_42
	.p2align	4
.LBB5ea25bc7_41:
	xorl	%ecx, %ecx
.LBB5ea25bc7_42:
	addq	%r12, %r14
	incq	%r14
	incq	%r12
	subq	%r12, %r15
	leaq	104(%rsp), %rdi
	leaq	80(%rsp), %r8
	leaq	48(%rsp), %rsi
	movq	%r13, %rdx
	callq	hll_estimator_fields.filter.pass_line.bc2b42e629227ff0
	movzbl	104(%rsp), %eax
	testb	%al, %al
	je	.LBB5ea25bc7_44
	cmpb	$1, %al
	jne	.LBB5ea25bc7_8
	jmp	.LBB5ea25bc7_70
	.p2align	4
.LBB5ea25bc7_44:
	movq	$0, 24(%rsp)
	jmp	.LBB5ea25bc7_8
.LBB5ea25bc7_24:
	cmpq	$32, %r12
	jae	.LBB5ea25bc7_26
	xorl	%eax, %eax
	jmp	.LBB5ea25bc7_30
.LBB5ea25bc7_26:
	movq	%r12, %rax
	andq	$-32, %rax
	leaq	(%rbx,%r13), %rcx
	addq	$16, %rcx
	xorl	%edx, %edx
	.p2align	4
.LBB5ea25bc7_27:
	movdqu	(%r14,%rdx), %xmm0
	movdqu	16(%r14,%rdx), %xmm1
	movdqu	%xmm0, -16(%rcx,%rdx)
	movdqu	%xmm1, (%rcx,%rdx)
	addq	$32, %rdx
	cmpq	%rdx, %rax
	jne	.LBB5ea25bc7_27
	cmpq	%rax, %r12
	je	.LBB5ea25bc7_39
	testb	$28, %r12b
	je	.LBB5ea25bc7_33
.LBB5ea25bc7_30:
	movq	%rax, %rcx
	movq	%r12, %rax
	andq	$-4, %rax
	.p2align	4
.LBB5ea25bc7_31:
	movl	(%r14,%rcx), %edx
	movl	%edx, (%rdi,%rcx)
	addq	$4, %rcx
	cmpq	%rcx, %rax
	jne	.LBB5ea25bc7_31
	cmpq	%rax, %r12
	je	.LBB5ea25bc7_39
	jmp	.LBB5ea25bc7_33
.LBB5ea25bc7_45:
	leaq	16(%rsp), %rdi
	movq	%r12, %rsi
	callq	std_alloc.vec.Vec.grow_amortized.d7da23479759cf44
	testb	%al, %al
	je	.LBB5ea25bc7_103
	movq	24(%rsp), %rbx
	movq	32(%rsp), %rbp
	jmp	.LBB5ea25bc7_18
	.p2align	4
.LBB5ea25bc7_47:
	movq	24(%rsp), %r13
	movq	32(%rsp), %rbx
	movq	%rbx, %rax
	subq	%r13, %rax
	cmpq	%rax, %r15
	ja	.LBB5ea25bc7_68
.LBB5ea25bc7_48:
	movq	16(%rsp), %r12
	leaq	(%r12,%r13), %rdi
	movq	%rdi, %rax
	subq	%r14, %rax
	cmpq	%r15, %rax
	jae	.LBB5ea25bc7_3
	cmpq	$4, %r15
	jb	.LBB5ea25bc7_50
	cmpq	$32, %rax
	jae	.LBB5ea25bc7_53
.LBB5ea25bc7_50:
	xorl	%eax, %eax
.LBB5ea25bc7_62:
	movq	%r15, %rdx
	movq	%rax, %rcx
	andq	$3, %rdx
	je	.LBB5ea25bc7_65
	movq	%rax, %rcx
	.p2align	4
.LBB5ea25bc7_64:
	movzbl	(%r14,%rcx), %esi
	movb	%sil, (%rdi,%rcx)
	incq	%rcx
	decq	%rdx
	jne	.LBB5ea25bc7_64
.LBB5ea25bc7_65:
	subq	%r15, %rax
	cmpq	$-4, %rax
	ja	.LBB5ea25bc7_4
	leaq	(%r12,%r13), %rax
	addq	$3, %rax
	.p2align	4
.LBB5ea25bc7_67:
	movzbl	(%r14,%rcx), %edx
	movb	%dl, -3(%rax,%rcx)
	movzbl	1(%r14,%rcx), %edx
	movb	%dl, -2(%rax,%rcx)
	movzbl	2(%r14,%rcx), %edx
	movb	%dl, -1(%rax,%rcx)
	movzbl	3(%r14,%rcx), %edx
	movb	%dl, (%rax,%rcx)
	addq	$4, %rcx
	cmpq	%rcx, %r15
	jne	.LBB5ea25bc7_67
	jmp	.LBB5ea25bc7_4
.LBB5ea25bc7_53:
	cmpq	$32, %r15
	jae	.LBB5ea25bc7_55
	xorl	%eax, %eax
	jmp	.LBB5ea25bc7_59
.LBB5ea25bc7_55:
	movq	%r15, %rax
	andq	$-32, %rax
	leaq	(%r12,%r13), %rcx
	addq	$16, %rcx
	xorl	%edx, %edx
	.p2align	4
.LBB5ea25bc7_56:
	movdqu	(%r14,%rdx), %xmm0
	movdqu	16(%r14,%rdx), %xmm1
	movdqu	%xmm0, -16(%rcx,%rdx)
	movdqu	%xmm1, (%rcx,%rdx)
	addq	$32, %rdx
	cmpq	%rdx, %rax
	jne	.LBB5ea25bc7_56
	cmpq	%rax, %r15
	je	.LBB5ea25bc7_4
	testb	$28, %r15b
	je	.LBB5ea25bc7_62
.LBB5ea25bc7_59:
	movq	%rax, %rcx
	movq	%r15, %rax
	andq	$-4, %rax
	.p2align	4
.LBB5ea25bc7_60:
	movl	(%r14,%rcx), %edx
	movl	%edx, (%rdi,%rcx)
	addq	$4, %rcx
	cmpq	%rcx, %rax
	jne	.LBB5ea25bc7_60
	cmpq	%rax, %r15
	je	.LBB5ea25bc7_4
	jmp	.LBB5ea25bc7_62
.LBB5ea25bc7_68:
	leaq	16(%rsp), %rdi
	movq	%r15, %rsi
	callq	std_alloc.vec.Vec.grow_amortized.d7da23479759cf44
	testb	%al, %al
	je	.LBB5ea25bc7_109
	movq	24(%rsp), %r13
	movq	32(%rsp), %rbx
	jmp	.LBB5ea25bc7_48
.LBB5ea25bc7_70:
	movzbl	105(%rsp), %r13d
	movzbl	106(%rsp), %ebp
	movq	40(%rsp), %r15
	cmpq	$0, 32(%rsp)
	je	.LBB5ea25bc7_72
.LBB5ea25bc7_71:
	movq	16(%rsp), %rdi
	callq	rattle_dealloc@PLT
.LBB5ea25bc7_72:
	cmpq	$0, 64(%rsp)
	je	.LBB5ea25bc7_87
	movq	48(%rsp), %rdi
	jmp	.LBB5ea25bc7_86
.LBB5ea25bc7_74:
	leaq	104(%rsp), %rdi
	callq	std_io.io.error.last_error
.LBB5ea25bc7_75:
	movq	40(%rsp), %r15
	testq	%rbx, %rbx
	je	.LBB5ea25bc7_77
	movq	%r12, %rdi
	callq	rattle_dealloc@PLT
.LBB5ea25bc7_77:
	movb	$6, %r13b
	cmpq	$0, 64(%rsp)
	je	.LBB5ea25bc7_79
	movq	48(%rsp), %rdi
	callq	rattle_dealloc@PLT
.LBB5ea25bc7_79:
	xorl	%ebp, %ebp
	xorl	%ebx, %ebx
	jmp	.LBB5ea25bc7_88
.LBB5ea25bc7_80:
	movq	40(%rsp), %rax
	movb	$0, 106(%rsp)
	movw	$0, 104(%rsp)
	leaq	48(%rsp), %rcx
	movdqu	(%rcx), %xmm0
	movdqa	%xmm0, 192(%rsp)
	movq	16(%rcx), %rcx
	movq	%rcx, 208(%rsp)
	testq	%r13, %r13
	je	.LBB5ea25bc7_98
	incq	%rax
	movq	$-1, %r15
	cmovneq	%rax, %r15
	leaq	104(%rsp), %rdi
	leaq	192(%rsp), %rsi
	leaq	80(%rsp), %r8
	movq	%r12, %rdx
	movq	%r13, %rcx
	callq	hll_estimator_fields.filter.pass_line.bc2b42e629227ff0
	cmpb	$0, 104(%rsp)
	je	.LBB5ea25bc7_98
	movzbl	105(%rsp), %r13d
	movzbl	106(%rsp), %ebp
	cmpq	$0, 208(%rsp)
	je	.LBB5ea25bc7_84
	movq	192(%rsp), %rdi
	callq	rattle_dealloc@PLT
.LBB5ea25bc7_84:
	testq	%rbx, %rbx
	je	.LBB5ea25bc7_87
	movq	%r12, %rdi
.LBB5ea25bc7_86:
	callq	rattle_dealloc@PLT
.LBB5ea25bc7_87:
	xorl	%ebx, %ebx
	.p2align	4
.LBB5ea25bc7_88:
	leaq	.Lstatic.3(%rip), %rsi
	addq	%rbx, %rsi
	movl	$5, %r14d
	subq	%rbx, %r14
	movl	$2, %edi
	movq	%r14, %rdx
	callq	write@PLT
	testq	%rax, %rax
	js	.LBB5ea25bc7_147
	cmpq	%r14, %rax
	cmovbq	%rax, %r14
	testq	%r14, %r14
	je	.LBB5ea25bc7_148
	addq	%r14, %rbx
	cmpq	$4, %rbx
	jbe	.LBB5ea25bc7_88
	leaq	104(%rsp), %rdi
	movq	%r15, %rsi
	callq	hll_text.refusal.write_number.03326aa510967ad1
	cmpb	$0, 104(%rsp)
	jne	.LBB5ea25bc7_148
	leaq	.Lstatic.4(%rip), %rsi
	movl	$2, %edx
	movl	$2, %edi
	callq	write@PLT
	testq	%rax, %rax
	js	.LBB5ea25bc7_147
	je	.LBB5ea25bc7_148
	cmpq	$1, %rax
	jne	.LBB5ea25bc7_104
	leaq	.Lstatic.4+1(%rip), %rsi
	movl	$1, %edx
	movl	$2, %edi
	callq	write@PLT
	testq	%rax, %rax
	js	.LBB5ea25bc7_147
	je	.LBB5ea25bc7_148
	movzbl	%r13b, %eax
	leaq	.LJTI5ea25bc7_0(%rip), %rcx
	movslq	(%rcx,%rax,4), %rax
	addq	%rcx, %rax
	jmpq	*%rax
.LBB5ea25bc7_98:
	cmpq	$0, 208(%rsp)
	je	.LBB5ea25bc7_100
	movq	192(%rsp), %rdi
	callq	rattle_dealloc@PLT
.LBB5ea25bc7_100:
	testq	%rbx, %rbx
	je	.LBB5ea25bc7_102
	movq	%r12, %rdi
	callq	rattle_dealloc@PLT
.LBB5ea25bc7_102:
	xorl	%eax, %eax
	jmp	.LBB5ea25bc7_149
.LBB5ea25bc7_103:
	movq	40(%rsp), %r15
	movb	$5, %r13b
	xorl	%ebp, %ebp
	cmpq	$0, 32(%rsp)
	jne	.LBB5ea25bc7_71
	jmp	.LBB5ea25bc7_72
.LBB5ea25bc7_104:
	movzbl	%r13b, %eax
	leaq	.LJTI5ea25bc7_0(%rip), %rcx
	movslq	(%rcx,%rax,4), %rax
	addq	%rcx, %rax
	jmpq	*%rax
.LBB5ea25bc7_105:
	xorl	%r14d, %r14d
.LBB5ea25bc7_106:
	leaq	.Lstatic.5(%rip), %rsi
	addq	%r14, %rsi
	movl	$6, %ebx
	subq	%r14, %rbx
	movl	$2, %edi
	movq	%rbx, %rdx
	callq	write@PLT
	testq	%rax, %rax
	js	.LBB5ea25bc7_147
	cmpq	%rbx, %rax
	cmovbq	%rax, %rbx
	testq	%rbx, %rbx
	je	.LBB5ea25bc7_148
	addq	%rbx, %r14
	cmpq	$5, %r14
	jbe	.LBB5ea25bc7_106
	jmp	.LBB5ea25bc7_146
.LBB5ea25bc7_109:
	movb	$5, %r13b
	movq	40(%rsp), %r15
	xorl	%ebp, %ebp
	cmpq	$0, 32(%rsp)
	jne	.LBB5ea25bc7_71
	jmp	.LBB5ea25bc7_72
.LBB5ea25bc7_110:
	xorl	%r14d, %r14d
.LBB5ea25bc7_111:
	leaq	.Lstatic.9(%rip), %rsi
	addq	%r14, %rsi
	movl	$5, %ebx
	subq	%r14, %rbx
	movl	$2, %edi
	movq	%rbx, %rdx
	callq	write@PLT
	testq	%rax, %rax
	js	.LBB5ea25bc7_147
	cmpq	%rbx, %rax
	cmovbq	%rax, %rbx
	testq	%rbx, %rbx
	je	.LBB5ea25bc7_148
	addq	%rbx, %r14
	cmpq	$4, %r14
	jbe	.LBB5ea25bc7_111
	jmp	.LBB5ea25bc7_146
.LBB5ea25bc7_114:
	xorl	%r14d, %r14d
.LBB5ea25bc7_115:
	leaq	.Lstatic.7(%rip), %rsi
	addq	%r14, %rsi
	movl	$3, %ebx
	subq	%r14, %rbx
	movl	$2, %edi
	movq	%rbx, %rdx
	callq	write@PLT
	testq	%rax, %rax
	js	.LBB5ea25bc7_147
	cmpq	%rbx, %rax
	cmovbq	%rax, %rbx
	testq	%rbx, %rbx
	je	.LBB5ea25bc7_148
	addq	%rbx, %r14
	cmpq	$2, %r14
	jbe	.LBB5ea25bc7_115
	jmp	.LBB5ea25bc7_146
.LBB5ea25bc7_118:
	xorl	%r14d, %r14d
.LBB5ea25bc7_119:
	leaq	.Lstatic.8(%rip), %rsi
	addq	%r14, %rsi
	movl	$6, %ebx
	subq	%r14, %rbx
	movl	$2, %edi
	movq	%rbx, %rdx
	callq	write@PLT
	testq	%rax, %rax
	js	.LBB5ea25bc7_147
	cmpq	%rbx, %rax
	cmovbq	%rax, %rbx
	movl	$1, %eax
	testq	%rbx, %rbx
	je	.LBB5ea25bc7_149
	addq	%rbx, %r14
	cmpq	$5, %r14
	jbe	.LBB5ea25bc7_119
	leaq	.Lswitch.table.hll_estimator_fields_program.main.start(%rip), %rax
	movzbl	%bpl, %ecx
	movq	(%rax,%rcx,8), %r14
	leaq	.Lswitch.table.hll_estimator_fields_program.main.start.237.rel(%rip), %rax
	movslq	(%rax,%rcx,4), %r15
	addq	%rax, %r15
	xorl	%r12d, %r12d
.LBB5ea25bc7_123:
	leaq	(%r15,%r12), %rsi
	movq	%r14, %rbx
	subq	%r12, %rbx
	movl	$2, %edi
	movq	%rbx, %rdx
	callq	write@PLT
	testq	%rax, %rax
	js	.LBB5ea25bc7_147
	cmpq	%rbx, %rax
	cmovbq	%rax, %rbx
	testq	%rbx, %rbx
	je	.LBB5ea25bc7_148
	addq	%rbx, %r12
	cmpq	%r14, %r12
	jb	.LBB5ea25bc7_123
	jmp	.LBB5ea25bc7_146
.LBB5ea25bc7_126:
	xorl	%r14d, %r14d
.LBB5ea25bc7_127:
	leaq	.Lstatic.12(%rip), %rsi
	addq	%r14, %rsi
	movl	$5, %ebx
	subq	%r14, %rbx
	movl	$2, %edi
	movq	%rbx, %rdx
	callq	write@PLT
	testq	%rax, %rax
	js	.LBB5ea25bc7_147
	cmpq	%rbx, %rax
	cmovbq	%rax, %rbx
	testq	%rbx, %rbx
	je	.LBB5ea25bc7_148
	addq	%rbx, %r14
	cmpq	$4, %r14
	jbe	.LBB5ea25bc7_127
	jmp	.LBB5ea25bc7_146
.LBB5ea25bc7_130:
	xorl	%r14d, %r14d
.LBB5ea25bc7_131:
	leaq	.Lstatic.6(%rip), %rsi
	addq	%r14, %rsi
	movl	$5, %ebx
	subq	%r14, %rbx
	movl	$2, %edi
	movq	%rbx, %rdx
	callq	write@PLT
	testq	%rax, %rax
	js	.LBB5ea25bc7_147
	cmpq	%rbx, %rax
	cmovbq	%rax, %rbx
	testq	%rbx, %rbx
	je	.LBB5ea25bc7_148
	addq	%rbx, %r14
	cmpq	$4, %r14
	jbe	.LBB5ea25bc7_131
	jmp	.LBB5ea25bc7_146
.LBB5ea25bc7_134:
	xorl	%r14d, %r14d
.LBB5ea25bc7_135:
	leaq	.Lstatic.10(%rip), %rsi
	addq	%r14, %rsi
	movl	$6, %ebx
	subq	%r14, %rbx
	movl	$2, %edi
	movq	%rbx, %rdx
	callq	write@PLT
	testq	%rax, %rax
	js	.LBB5ea25bc7_147
	cmpq	%rbx, %rax
	cmovbq	%rax, %rbx
	testq	%rbx, %rbx
	je	.LBB5ea25bc7_148
	addq	%rbx, %r14
	cmpq	$5, %r14
	jbe	.LBB5ea25bc7_135
	jmp	.LBB5ea25bc7_146
.LBB5ea25bc7_138:
	xorl	%r14d, %r14d
.LBB5ea25bc7_139:
	leaq	.Lstatic.11(%rip), %rsi
	addq	%r14, %rsi
	movl	$4, %ebx
	subq	%r14, %rbx
	movl	$2, %edi
	movq	%rbx, %rdx
	callq	write@PLT
	testq	%rax, %rax
	js	.LBB5ea25bc7_147
	cmpq	%rbx, %rax
	cmovbq	%rax, %rbx
	testq	%rbx, %rbx
	je	.LBB5ea25bc7_148
	addq	%rbx, %r14
	cmpq	$3, %r14
	jbe	.LBB5ea25bc7_139
	jmp	.LBB5ea25bc7_146
.LBB5ea25bc7_142:
	xorl	%r14d, %r14d
.LBB5ea25bc7_143:
	leaq	.Lstatic.13(%rip), %rsi
	addq	%r14, %rsi
	movl	$4, %ebx
	subq	%r14, %rbx
	movl	$2, %edi
	movq	%rbx, %rdx
	callq	write@PLT
	testq	%rax, %rax
	js	.LBB5ea25bc7_147
	cmpq	%rbx, %rax
	cmovbq	%rax, %rbx
	testq	%rbx, %rbx
	je	.LBB5ea25bc7_148
	addq	%rbx, %r14
	cmpq	$3, %r14
	jbe	.LBB5ea25bc7_143
.LBB5ea25bc7_146:
	leaq	.Lstatic.1(%rip), %rsi
	movl	$1, %edx
	movl	$2, %edi
	callq	write@PLT
	testq	%rax, %rax
	jns	.LBB5ea25bc7_148
.LBB5ea25bc7_147:
	leaq	192(%rsp), %rdi
	callq	std_io.io.error.last_error
.LBB5ea25bc7_148:
	movl	$1, %eax
.LBB5ea25bc7_149:
	addq	$65736, %rsp
	popq	%rbx
	popq	%r12
	popq	%r13
	popq	%r14
	popq	%r15
	popq	%rbp
	retq
.Lfunc_end5ea25bc7:
	.size	hll_estimator_fields_program.main.start, .Lfunc_end5ea25bc7-hll_estimator_fields_program.main.start
	.section	.rodata.hll_estimator_fields_program.main.start,"a",@progbits
	.p2align	2, 0x0
.LJTI5ea25bc7_0:
	.long	.LBB5ea25bc7_105-.LJTI5ea25bc7_0
	.long	.LBB5ea25bc7_130-.LJTI5ea25bc7_0
	.long	.LBB5ea25bc7_114-.LJTI5ea25bc7_0
	.long	.LBB5ea25bc7_118-.LJTI5ea25bc7_0
	.long	.LBB5ea25bc7_110-.LJTI5ea25bc7_0
	.long	.LBB5ea25bc7_134-.LJTI5ea25bc7_0
	.long	.LBB5ea25bc7_138-.LJTI5ea25bc7_0
	.long	.LBB5ea25bc7_126-.LJTI5ea25bc7_0
	.long	.LBB5ea25bc7_142-.LJTI5ea25bc7_0

	.section	.text.std_io.io.error.last_error,"ax",@progbits
	.p2align	4
	.type	std_io.io.error.last_error,@function
std_io.io.error.last_error:
	pushq	%rbx
	movq	%rdi, %rbx
	callq	rattle_errno@PLT
	movl	%eax, %ecx
	movb	$41, %dl
	testl	%eax, %eax
	js	.LBBbca4a5a3_40
	decl	%eax
	cmpl	$121, %eax
	ja	.LBBbca4a5a3_40
	leaq	.LJTIbca4a5a3_0(%rip), %rsi
	movslq	(%rsi,%rax,4), %rax
	addq	%rsi, %rax
	jmpq	*%rax
.LBBbca4a5a3_3:
	movb	$1, %dl
	jmp	.LBBbca4a5a3_40
.LBBbca4a5a3_24:
	movb	$36, %dl
	jmp	.LBBbca4a5a3_40
.LBBbca4a5a3_36:
	movb	$4, %dl
	jmp	.LBBbca4a5a3_40
.LBBbca4a5a3_33:
	movb	$7, %dl
	jmp	.LBBbca4a5a3_40
.LBBbca4a5a3_39:
	movb	$26, %dl
	jmp	.LBBbca4a5a3_40
.LBBbca4a5a3_37:
	movb	$39, %dl
	jmp	.LBBbca4a5a3_40
.LBBbca4a5a3_28:
	movb	$9, %dl
	jmp	.LBBbca4a5a3_40
.LBBbca4a5a3_27:
	movb	$8, %dl
	jmp	.LBBbca4a5a3_40
.LBBbca4a5a3_22:
	movb	$30, %dl
	jmp	.LBBbca4a5a3_40
.LBBbca4a5a3_18:
	movb	$25, %dl
	jmp	.LBBbca4a5a3_40
.LBBbca4a5a3_20:
	movb	$32, %dl
	jmp	.LBBbca4a5a3_40
.LBBbca4a5a3_23:
	movb	$33, %dl
	jmp	.LBBbca4a5a3_40
.LBBbca4a5a3_34:
	movb	$22, %dl
	jmp	.LBBbca4a5a3_40
.LBBbca4a5a3_11:
	movb	$31, %dl
	jmp	.LBBbca4a5a3_40
.LBBbca4a5a3_15:
	movb	$29, %dl
	jmp	.LBBbca4a5a3_40
.LBBbca4a5a3_26:
	movb	$18, %dl
	jmp	.LBBbca4a5a3_40
.LBBbca4a5a3_29:
	movb	$10, %dl
	jmp	.LBBbca4a5a3_40
.LBBbca4a5a3_9:
	movb	$28, %dl
	jmp	.LBBbca4a5a3_40
.LBBbca4a5a3_12:
	movb	$14, %dl
	jmp	.LBBbca4a5a3_40
.LBBbca4a5a3_10:
	movb	$12, %dl
	jmp	.LBBbca4a5a3_40
.LBBbca4a5a3_30:
	movb	$5, %dl
	jmp	.LBBbca4a5a3_40
.LBBbca4a5a3_32:
	movb	$3, %dl
	jmp	.LBBbca4a5a3_40
.LBBbca4a5a3_4:
	xorl	%edx, %edx
	jmp	.LBBbca4a5a3_40
.LBBbca4a5a3_7:
	movb	$13, %dl
	jmp	.LBBbca4a5a3_40
.LBBbca4a5a3_8:
	movb	$38, %dl
	jmp	.LBBbca4a5a3_40
.LBBbca4a5a3_21:
	movb	$11, %dl
	jmp	.LBBbca4a5a3_40
.LBBbca4a5a3_5:
	movb	$35, %dl
	jmp	.LBBbca4a5a3_40
.LBBbca4a5a3_6:
	movb	$34, %dl
	jmp	.LBBbca4a5a3_40
.LBBbca4a5a3_14:
	movb	$20, %dl
	jmp	.LBBbca4a5a3_40
.LBBbca4a5a3_13:
	movb	$15, %dl
	jmp	.LBBbca4a5a3_40
.LBBbca4a5a3_38:
	movb	$19, %dl
	jmp	.LBBbca4a5a3_40
.LBBbca4a5a3_25:
	movb	$16, %dl
	jmp	.LBBbca4a5a3_40
.LBBbca4a5a3_31:
	movb	$6, %dl
	jmp	.LBBbca4a5a3_40
.LBBbca4a5a3_16:
	movb	$27, %dl
	jmp	.LBBbca4a5a3_40
.LBBbca4a5a3_17:
	movb	$24, %dl
	jmp	.LBBbca4a5a3_40
.LBBbca4a5a3_35:
	movb	$2, %dl
	jmp	.LBBbca4a5a3_40
.LBBbca4a5a3_19:
	movb	$17, %dl
.LBBbca4a5a3_40:
	movb	$0, (%rbx)
	movb	%dl, 1(%rbx)
	movw	$0, 2(%rbx)
	movl	%ecx, 4(%rbx)
	xorps	%xmm0, %xmm0
	movups	%xmm0, 8(%rbx)
	movups	%xmm0, 24(%rbx)
	movups	%xmm0, 40(%rbx)
	movups	%xmm0, 56(%rbx)
	movups	%xmm0, 72(%rbx)
	popq	%rbx
	retq
.Lfunc_endbca4a5a3:
	.size	std_io.io.error.last_error, .Lfunc_endbca4a5a3-std_io.io.error.last_error
	.section	.rodata.std_io.io.error.last_error,"a",@progbits
	.p2align	2, 0x0
.LJTIbca4a5a3_0:
	.long	.LBBbca4a5a3_3-.LJTIbca4a5a3_0
	.long	.LBBbca4a5a3_4-.LJTIbca4a5a3_0
	.long	.LBBbca4a5a3_40-.LJTIbca4a5a3_0
	.long	.LBBbca4a5a3_5-.LJTIbca4a5a3_0
	.long	.LBBbca4a5a3_40-.LJTIbca4a5a3_0
	.long	.LBBbca4a5a3_40-.LJTIbca4a5a3_0
	.long	.LBBbca4a5a3_6-.LJTIbca4a5a3_0
	.long	.LBBbca4a5a3_40-.LJTIbca4a5a3_0
	.long	.LBBbca4a5a3_40-.LJTIbca4a5a3_0
	.long	.LBBbca4a5a3_40-.LJTIbca4a5a3_0
	.long	.LBBbca4a5a3_7-.LJTIbca4a5a3_0
	.long	.LBBbca4a5a3_8-.LJTIbca4a5a3_0
	.long	.LBBbca4a5a3_3-.LJTIbca4a5a3_0
	.long	.LBBbca4a5a3_40-.LJTIbca4a5a3_0
	.long	.LBBbca4a5a3_40-.LJTIbca4a5a3_0
	.long	.LBBbca4a5a3_9-.LJTIbca4a5a3_0
	.long	.LBBbca4a5a3_10-.LJTIbca4a5a3_0
	.long	.LBBbca4a5a3_11-.LJTIbca4a5a3_0
	.long	.LBBbca4a5a3_40-.LJTIbca4a5a3_0
	.long	.LBBbca4a5a3_12-.LJTIbca4a5a3_0
	.long	.LBBbca4a5a3_13-.LJTIbca4a5a3_0
	.long	.LBBbca4a5a3_14-.LJTIbca4a5a3_0
	.long	.LBBbca4a5a3_40-.LJTIbca4a5a3_0
	.long	.LBBbca4a5a3_40-.LJTIbca4a5a3_0
	.long	.LBBbca4a5a3_40-.LJTIbca4a5a3_0
	.long	.LBBbca4a5a3_15-.LJTIbca4a5a3_0
	.long	.LBBbca4a5a3_16-.LJTIbca4a5a3_0
	.long	.LBBbca4a5a3_17-.LJTIbca4a5a3_0
	.long	.LBBbca4a5a3_18-.LJTIbca4a5a3_0
	.long	.LBBbca4a5a3_19-.LJTIbca4a5a3_0
	.long	.LBBbca4a5a3_20-.LJTIbca4a5a3_0
	.long	.LBBbca4a5a3_21-.LJTIbca4a5a3_0
	.long	.LBBbca4a5a3_40-.LJTIbca4a5a3_0
	.long	.LBBbca4a5a3_40-.LJTIbca4a5a3_0
	.long	.LBBbca4a5a3_22-.LJTIbca4a5a3_0
	.long	.LBBbca4a5a3_23-.LJTIbca4a5a3_0
	.long	.LBBbca4a5a3_40-.LJTIbca4a5a3_0
	.long	.LBBbca4a5a3_24-.LJTIbca4a5a3_0
	.long	.LBBbca4a5a3_25-.LJTIbca4a5a3_0
	.long	.LBBbca4a5a3_26-.LJTIbca4a5a3_0
	.long	.LBBbca4a5a3_40-.LJTIbca4a5a3_0
	.long	.LBBbca4a5a3_40-.LJTIbca4a5a3_0
	.long	.LBBbca4a5a3_40-.LJTIbca4a5a3_0
	.long	.LBBbca4a5a3_40-.LJTIbca4a5a3_0
	.long	.LBBbca4a5a3_40-.LJTIbca4a5a3_0
	.long	.LBBbca4a5a3_40-.LJTIbca4a5a3_0
	.long	.LBBbca4a5a3_40-.LJTIbca4a5a3_0
	.long	.LBBbca4a5a3_40-.LJTIbca4a5a3_0
	.long	.LBBbca4a5a3_40-.LJTIbca4a5a3_0
	.long	.LBBbca4a5a3_40-.LJTIbca4a5a3_0
	.long	.LBBbca4a5a3_40-.LJTIbca4a5a3_0
	.long	.LBBbca4a5a3_40-.LJTIbca4a5a3_0
	.long	.LBBbca4a5a3_40-.LJTIbca4a5a3_0
	.long	.LBBbca4a5a3_40-.LJTIbca4a5a3_0
	.long	.LBBbca4a5a3_40-.LJTIbca4a5a3_0
	.long	.LBBbca4a5a3_40-.LJTIbca4a5a3_0
	.long	.LBBbca4a5a3_40-.LJTIbca4a5a3_0
	.long	.LBBbca4a5a3_40-.LJTIbca4a5a3_0
	.long	.LBBbca4a5a3_40-.LJTIbca4a5a3_0
	.long	.LBBbca4a5a3_40-.LJTIbca4a5a3_0
	.long	.LBBbca4a5a3_40-.LJTIbca4a5a3_0
	.long	.LBBbca4a5a3_40-.LJTIbca4a5a3_0
	.long	.LBBbca4a5a3_40-.LJTIbca4a5a3_0
	.long	.LBBbca4a5a3_40-.LJTIbca4a5a3_0
	.long	.LBBbca4a5a3_40-.LJTIbca4a5a3_0
	.long	.LBBbca4a5a3_40-.LJTIbca4a5a3_0
	.long	.LBBbca4a5a3_40-.LJTIbca4a5a3_0
	.long	.LBBbca4a5a3_40-.LJTIbca4a5a3_0
	.long	.LBBbca4a5a3_40-.LJTIbca4a5a3_0
	.long	.LBBbca4a5a3_40-.LJTIbca4a5a3_0
	.long	.LBBbca4a5a3_40-.LJTIbca4a5a3_0
	.long	.LBBbca4a5a3_40-.LJTIbca4a5a3_0
	.long	.LBBbca4a5a3_40-.LJTIbca4a5a3_0
	.long	.LBBbca4a5a3_40-.LJTIbca4a5a3_0
	.long	.LBBbca4a5a3_40-.LJTIbca4a5a3_0
	.long	.LBBbca4a5a3_40-.LJTIbca4a5a3_0
	.long	.LBBbca4a5a3_40-.LJTIbca4a5a3_0
	.long	.LBBbca4a5a3_40-.LJTIbca4a5a3_0
	.long	.LBBbca4a5a3_40-.LJTIbca4a5a3_0
	.long	.LBBbca4a5a3_40-.LJTIbca4a5a3_0
	.long	.LBBbca4a5a3_40-.LJTIbca4a5a3_0
	.long	.LBBbca4a5a3_40-.LJTIbca4a5a3_0
	.long	.LBBbca4a5a3_40-.LJTIbca4a5a3_0
	.long	.LBBbca4a5a3_40-.LJTIbca4a5a3_0
	.long	.LBBbca4a5a3_40-.LJTIbca4a5a3_0
	.long	.LBBbca4a5a3_40-.LJTIbca4a5a3_0
	.long	.LBBbca4a5a3_40-.LJTIbca4a5a3_0
	.long	.LBBbca4a5a3_40-.LJTIbca4a5a3_0
	.long	.LBBbca4a5a3_40-.LJTIbca4a5a3_0
	.long	.LBBbca4a5a3_40-.LJTIbca4a5a3_0
	.long	.LBBbca4a5a3_40-.LJTIbca4a5a3_0
	.long	.LBBbca4a5a3_40-.LJTIbca4a5a3_0
	.long	.LBBbca4a5a3_40-.LJTIbca4a5a3_0
	.long	.LBBbca4a5a3_40-.LJTIbca4a5a3_0
	.long	.LBBbca4a5a3_24-.LJTIbca4a5a3_0
	.long	.LBBbca4a5a3_40-.LJTIbca4a5a3_0
	.long	.LBBbca4a5a3_40-.LJTIbca4a5a3_0
	.long	.LBBbca4a5a3_27-.LJTIbca4a5a3_0
	.long	.LBBbca4a5a3_28-.LJTIbca4a5a3_0
	.long	.LBBbca4a5a3_29-.LJTIbca4a5a3_0
	.long	.LBBbca4a5a3_30-.LJTIbca4a5a3_0
	.long	.LBBbca4a5a3_40-.LJTIbca4a5a3_0
	.long	.LBBbca4a5a3_31-.LJTIbca4a5a3_0
	.long	.LBBbca4a5a3_32-.LJTIbca4a5a3_0
	.long	.LBBbca4a5a3_40-.LJTIbca4a5a3_0
	.long	.LBBbca4a5a3_40-.LJTIbca4a5a3_0
	.long	.LBBbca4a5a3_33-.LJTIbca4a5a3_0
	.long	.LBBbca4a5a3_40-.LJTIbca4a5a3_0
	.long	.LBBbca4a5a3_40-.LJTIbca4a5a3_0
	.long	.LBBbca4a5a3_34-.LJTIbca4a5a3_0
	.long	.LBBbca4a5a3_35-.LJTIbca4a5a3_0
	.long	.LBBbca4a5a3_40-.LJTIbca4a5a3_0
	.long	.LBBbca4a5a3_36-.LJTIbca4a5a3_0
	.long	.LBBbca4a5a3_40-.LJTIbca4a5a3_0
	.long	.LBBbca4a5a3_37-.LJTIbca4a5a3_0
	.long	.LBBbca4a5a3_38-.LJTIbca4a5a3_0
	.long	.LBBbca4a5a3_40-.LJTIbca4a5a3_0
	.long	.LBBbca4a5a3_40-.LJTIbca4a5a3_0
	.long	.LBBbca4a5a3_40-.LJTIbca4a5a3_0
	.long	.LBBbca4a5a3_40-.LJTIbca4a5a3_0
	.long	.LBBbca4a5a3_40-.LJTIbca4a5a3_0
	.long	.LBBbca4a5a3_39-.LJTIbca4a5a3_0

	.section	.text.unlikely.std_alloc.vec.Vec.grow_amortized.d7da23479759cf44,"ax",@progbits
	.p2align	4
	.type	std_alloc.vec.Vec.grow_amortized.d7da23479759cf44,@function
std_alloc.vec.Vec.grow_amortized.d7da23479759cf44:
	movq	%rsi, %rax
	movq	8(%rdi), %rsi
	addq	%rsi, %rax
	jae	.LBB887cf4d0_2
	xorl	%eax, %eax
	retq
.LBB887cf4d0_2:
	pushq	%r14
	pushq	%rbx
	pushq	%rax
	cmpq	$9, %rax
	movl	$8, %ebx
	cmovaeq	%rax, %rbx
	movq	16(%rdi), %rcx
	movq	%rcx, %rdx
	shrq	$62, %rdx
	leaq	(%rcx,%rcx), %rax
	cmpq	%rax, %rbx
	cmovaq	%rbx, %rax
	testq	%rdx, %rdx
	cmoveq	%rax, %rbx
	testq	%rbx, %rbx
	js	.LBB887cf4d0_6
	testq	%rcx, %rcx
	je	.LBB887cf4d0_8
	movq	%rdi, %r14
	movq	(%rdi), %rdi
	movl	$1, %ecx
	movq	%rbx, %rdx
	callq	rattle_realloc@PLT
	testb	$1, %al
	je	.LBB887cf4d0_6
.LBB887cf4d0_9:
	movq	%rdx, (%r14)
	movq	%rbx, 16(%r14)
	movb	$1, %al
	addq	$8, %rsp
	popq	%rbx
	popq	%r14
	retq
.LBB887cf4d0_8:
	movq	%rdi, %r14
	movl	$1, %esi
	movq	%rax, %rdi
	callq	rattle_alloc@PLT
	testb	$1, %al
	jne	.LBB887cf4d0_9
.LBB887cf4d0_6:
	xorl	%eax, %eax
	addq	$8, %rsp
	popq	%rbx
	popq	%r14
	retq
.Lfunc_end887cf4d0:
	.size	std_alloc.vec.Vec.grow_amortized.d7da23479759cf44, .Lfunc_end887cf4d0-std_alloc.vec.Vec.grow_amortized.d7da23479759cf44

	.section	.text.hll_estimator_fields.filter.pass_line.bc2b42e629227ff0,"ax",@progbits
	.p2align	4
	.type	hll_estimator_fields.filter.pass_line.bc2b42e629227ff0,@function
hll_estimator_fields.filter.pass_line.bc2b42e629227ff0:
	pushq	%rbp
	pushq	%r15
	pushq	%r14
	pushq	%r13
	pushq	%r12
	pushq	%rbx
	movq	%rsp, %r11
	subq	$30720, %r11
.LBB72167e3f_1:
	subq	$3072, %rsp
	movq	$0, (%rsp)
	cmpq	%r11, %rsp
	jne	.LBB72167e3f_1
	subq	$2232, %rsp
	movq	%rsi, %r12
	movq	%rdi, %r15
	xorps	%xmm0, %xmm0
	movaps	%xmm0, 64(%rsp)
	movaps	%xmm0, 48(%rsp)
	movq	16(%rsi), %rax
	movq	%rax, 192(%rsp)
	movups	(%rsi), %xmm1
	movaps	%xmm1, 176(%rsp)
	leaq	31(%rsp), %rax
	movq	%rax, (%rsi)
	movups	%xmm0, 8(%rsi)
	movq	%rcx, %r13
	shrq	%r13
	movq	184(%rsp), %rdi
	cmpq	%r13, %rdi
	cmovaeq	%r13, %rdi
	movq	%rdi, 184(%rsp)
	jae	.LBB72167e3f_3
	movq	%r15, 8(%rsp)
	movq	%r13, %r15
	subq	%rdi, %r15
	movq	192(%rsp), %r14
	movq	%r14, %rax
	subq	%rdi, %rax
	cmpq	%rax, %r15
	ja	.LBB72167e3f_5
	leaq	(%rdi,%r15), %rbx
	cmpq	%rbx, %rdi
	jae	.LBB72167e3f_9
.LBB72167e3f_8:
	addq	176(%rsp), %rdi
	xorl	%esi, %esi
	movq	%rdx, 16(%rsp)
	movq	%r15, %rdx
	movq	%rcx, %r15
	movq	%r8, %rbp
	callq	memset@PLT
	movq	%rbp, %r8
	movq	%r15, %rcx
	movq	16(%rsp), %rdx
.LBB72167e3f_9:
	movq	%r14, 192(%rsp)
	movq	8(%rsp), %r15
	movq	176(%rsp), %rbp
	testb	$1, %cl
	je	.LBB72167e3f_11
	jmp	.LBB72167e3f_41
.LBB72167e3f_3:
	movq	%rdi, %rbx
	movq	176(%rsp), %rbp
	testb	$1, %cl
	jne	.LBB72167e3f_41
.LBB72167e3f_11:
	cmpq	%rbx, %r13
	jne	.LBB72167e3f_41
	testq	%r13, %r13
	je	.LBB72167e3f_34
	xorl	%eax, %eax
	jmp	.LBB72167e3f_14
	.p2align	4
.LBB72167e3f_27:
	addb	$-48, %sil
.LBB72167e3f_33:
	shlb	$4, %cl
	addb	%sil, %cl
	movb	%cl, (%rbp,%rax)
	incq	%rax
	cmpq	%rax, %r13
	je	.LBB72167e3f_34
.LBB72167e3f_14:
	movzbl	(%rdx,%rax,2), %ecx
	cmpb	$48, %cl
	jb	.LBB72167e3f_41
	movzbl	1(%rdx,%rax,2), %esi
	cmpb	$57, %cl
	ja	.LBB72167e3f_20
	addb	$-48, %cl
	cmpb	$48, %sil
	jae	.LBB72167e3f_26
	jmp	.LBB72167e3f_41
	.p2align	4
.LBB72167e3f_20:
	cmpb	$65, %cl
	jb	.LBB72167e3f_41
	cmpb	$70, %cl
	ja	.LBB72167e3f_23
	addb	$-55, %cl
	cmpb	$48, %sil
	jae	.LBB72167e3f_26
	jmp	.LBB72167e3f_41
	.p2align	4
.LBB72167e3f_23:
	leal	-97(%rcx), %edi
	cmpb	$5, %dil
	ja	.LBB72167e3f_41
	addb	$-87, %cl
	cmpb	$48, %sil
	jb	.LBB72167e3f_41
.LBB72167e3f_26:
	cmpb	$57, %sil
	jbe	.LBB72167e3f_27
	cmpb	$65, %sil
	jb	.LBB72167e3f_41
	cmpb	$70, %sil
	ja	.LBB72167e3f_31
	addb	$-55, %sil
	jmp	.LBB72167e3f_33
	.p2align	4
.LBB72167e3f_31:
	leal	-97(%rsi), %edi
	cmpb	$5, %dil
	ja	.LBB72167e3f_41
	addb	$-87, %sil
	jmp	.LBB72167e3f_33
.LBB72167e3f_41:
	movb	$2, %r14b
	cmpq	$0, 192(%rsp)
	je	.LBB72167e3f_43
	movq	%rbp, %rdi
	callq	rattle_dealloc@PLT
.LBB72167e3f_43:
	movb	$1, (%r15)
	movb	%r14b, 1(%r15)
	movb	$0, 2(%r15)
.LBB72167e3f_44:
	addq	$32952, %rsp
	popq	%rbx
	popq	%r12
	popq	%r13
	popq	%r14
	popq	%r15
	popq	%rbp
	retq
.LBB72167e3f_34:
	movq	%r8, %rbx
	movq	%r15, 8(%rsp)
	movq	192(%rsp), %r15
	leaq	48(%rsp), %rdi
	movq	%rbp, %rsi
	movq	%r13, %rdx
	callq	hll_estimator_fields.filter.with_fields.5da326502419fe7c
	cmpb	$0, 48(%rsp)
	je	.LBB72167e3f_35
	movzbl	49(%rsp), %eax
	xorl	%ebx, %ebx
	cmpb	$12, %al
	cmovnel	%eax, %ebx
	sete	%r14b
	addb	%r14b, %r14b
	addb	$3, %r14b
	testq	%r15, %r15
	je	.LBB72167e3f_66
	movq	%rbp, %rdi
	callq	rattle_dealloc@PLT
.LBB72167e3f_66:
	movq	8(%rsp), %rax
	movb	$1, (%rax)
	movb	%r14b, 1(%rax)
	movb	%bl, 2(%rax)
	jmp	.LBB72167e3f_44
.LBB72167e3f_35:
	movq	56(%rsp), %rax
	movq	%rax, 40(%rsp)
	movq	64(%rsp), %rax
	movq	%rax, 16(%rsp)
	movq	72(%rsp), %rax
	movq	%rax, 32(%rsp)
	movq	(%r12), %rdi
	movq	%rbp, (%r12)
	movq	%r13, 8(%r12)
	cmpq	$0, 16(%r12)
	movq	%r15, 16(%r12)
	je	.LBB72167e3f_37
	callq	rattle_dealloc@PLT
.LBB72167e3f_37:
	leaq	176(%rsp), %rdi
	movl	$32768, %edx
	xorl	%esi, %esi
	callq	memset@PLT
	cmpq	$0, 16(%rsp)
	movq	8(%rsp), %r14
	je	.LBB72167e3f_56
	movq	40(%rsp), %rax
	incq	%rax
	movq	%rax, 80(%rsp)
	xorl	%ebp, %ebp
.LBB72167e3f_39:
	movq	16(%rsp), %rax
	subq	%rbp, %rax
	cmpq	$16384, %rax
	movl	$16384, %r13d
	cmovbq	%rax, %r13
	cmpq	$1, %rax
	jne	.LBB72167e3f_45
	xorl	%eax, %eax
	jmp	.LBB72167e3f_48
.LBB72167e3f_45:
	movl	%r13d, %ecx
	andl	$32766, %ecx
	movq	80(%rsp), %rax
	leaq	(%rax,%rbp), %rdx
	xorl	%eax, %eax
	.p2align	4
.LBB72167e3f_46:
	movzbl	-1(%rdx,%rax), %esi
	movl	%esi, %edi
	shrl	$4, %edi
	leaq	.Lstatic.2(%rip), %r8
	movzbl	(%rdi,%r8), %edi
	movb	%dil, 176(%rsp,%rax,2)
	andl	$15, %esi
	movzbl	(%rsi,%r8), %esi
	movb	%sil, 177(%rsp,%rax,2)
	movzbl	(%rdx,%rax), %esi
	movl	%esi, %edi
	shrl	$4, %edi
	movzbl	(%rdi,%r8), %edi
	movb	%dil, 178(%rsp,%rax,2)
	andl	$15, %esi
	movzbl	(%rsi,%r8), %esi
	movb	%sil, 179(%rsp,%rax,2)
	addq	$2, %rax
	cmpq	%rax, %rcx
	jne	.LBB72167e3f_46
	testb	$1, %r13b
	je	.LBB72167e3f_49
.LBB72167e3f_48:
	movq	40(%rsp), %rcx
	addq	%rbp, %rcx
	movzbl	(%rcx,%rax), %ecx
	movl	%ecx, %edx
	shrl	$4, %edx
	leaq	.Lstatic.2(%rip), %rsi
	movzbl	(%rdx,%rsi), %edx
	movb	%dl, 176(%rsp,%rax,2)
	andl	$15, %ecx
	movzbl	(%rcx,%rsi), %ecx
	movb	%cl, 177(%rsp,%rax,2)
.LBB72167e3f_49:
	leaq	(,%r13,2), %r15
	xorl	%r14d, %r14d
	.p2align	4
.LBB72167e3f_51:
	leaq	(%rsp,%r14), %rsi
	addq	$176, %rsi
	movq	%r15, %r12
	subq	%r14, %r12
	movl	$1, %edi
	movq	%r12, %rdx
	callq	write@PLT
	testq	%rax, %rax
	js	.LBB72167e3f_53
	cmpq	%r12, %rax
	cmovbq	%rax, %r12
	testq	%r12, %r12
	je	.LBB72167e3f_54
	addq	%r12, %r14
	cmpq	%r15, %r14
	jb	.LBB72167e3f_51
	addq	%r13, %rbp
	cmpq	16(%rsp), %rbp
	movq	8(%rsp), %r14
	jb	.LBB72167e3f_39
.LBB72167e3f_56:
	leaq	.Lstatic.1(%rip), %rsi
	movl	$1, %edx
	movl	$1, %edi
	callq	write@PLT
	testq	%rax, %rax
	js	.LBB72167e3f_59
	je	.LBB72167e3f_60
	xorl	%ebx, %ebx
	xorl	%ebp, %ebp
	movq	32(%rsp), %rax
	testq	%rax, %rax
	jne	.LBB72167e3f_62
	jmp	.LBB72167e3f_63
.LBB72167e3f_5:
	movq	%r8, 16(%rsp)
	movq	%rcx, %rbx
	movq	%rdx, %rbp
	leaq	176(%rsp), %rdi
	movq	%r15, %rsi
	callq	std_alloc.vec.Vec.grow_amortized.d7da23479759cf44
	testb	%al, %al
	je	.LBB72167e3f_17
	movq	184(%rsp), %rdi
	movq	192(%rsp), %r14
	movq	%rbp, %rdx
	movq	%rbx, %rcx
	movq	16(%rsp), %r8
	leaq	(%rdi,%r15), %rbx
	cmpq	%rbx, %rdi
	jb	.LBB72167e3f_8
	jmp	.LBB72167e3f_9
.LBB72167e3f_53:
	leaq	88(%rsp), %rdi
	callq	std_io.io.error.last_error
.LBB72167e3f_54:
	movb	$1, (%rbx)
	movb	$7, %bpl
	movb	$1, %bl
	movq	8(%rsp), %r14
	movq	32(%rsp), %rax
	testq	%rax, %rax
	je	.LBB72167e3f_63
.LBB72167e3f_62:
	movq	40(%rsp), %rdi
	callq	rattle_dealloc@PLT
.LBB72167e3f_63:
	movb	%bl, (%r14)
	movb	%bpl, 1(%r14)
	movb	$0, 2(%r14)
	jmp	.LBB72167e3f_44
.LBB72167e3f_17:
	movb	$5, %r14b
	cmpq	$0, 192(%rsp)
	je	.LBB72167e3f_19
	movq	176(%rsp), %rdi
	callq	rattle_dealloc@PLT
.LBB72167e3f_19:
	movq	8(%rsp), %r15
	jmp	.LBB72167e3f_43
.LBB72167e3f_59:
	leaq	88(%rsp), %rdi
	callq	std_io.io.error.last_error
.LBB72167e3f_60:
	movb	$1, (%rbx)
	movb	$7, %bpl
	movb	$1, %bl
	movq	32(%rsp), %rax
	testq	%rax, %rax
	jne	.LBB72167e3f_62
	jmp	.LBB72167e3f_63
.Lfunc_end72167e3f:
	.size	hll_estimator_fields.filter.pass_line.bc2b42e629227ff0, .Lfunc_end72167e3f-hll_estimator_fields.filter.pass_line.bc2b42e629227ff0

	.section	.rodata.cst16,"aM",@progbits,16
	.p2align	4, 0x0
.LCPIa52ca417_0:
	.zero	16,15
.LCPIa52ca417_1:
	.zero	16,1
.LCPIa52ca417_2:
	.byte	15
	.byte	15
	.byte	15
	.byte	15
	.zero	1
	.zero	1
	.zero	1
	.zero	1
	.zero	1
	.zero	1
	.zero	1
	.zero	1
	.zero	1
	.zero	1
	.zero	1
	.zero	1
.LCPIa52ca417_3:
	.long	1
	.long	1
	.long	1
	.long	1
.LCPIa52ca417_4:
	.byte	16
	.byte	16
	.byte	16
	.byte	16
	.zero	1
	.zero	1
	.zero	1
	.zero	1
	.zero	1
	.zero	1
	.zero	1
	.zero	1
	.zero	1
	.zero	1
	.zero	1
	.zero	1
.LCPIa52ca417_5:
	.byte	239
	.byte	239
	.byte	239
	.byte	239
	.zero	1
	.zero	1
	.zero	1
	.zero	1
	.zero	1
	.zero	1
	.zero	1
	.zero	1
	.zero	1
	.zero	1
	.zero	1
	.zero	1
.LCPIa52ca417_6:
	.zero	16,63
.LCPIa52ca417_7:
	.short	255
	.short	255
	.short	255
	.short	255
	.short	255
	.short	255
	.short	255
	.short	255
.LCPIa52ca417_8:
	.byte	1
	.byte	3
	.byte	5
	.byte	7
	.byte	9
	.byte	11
	.byte	13
	.byte	15
	.zero	1
	.zero	1
	.zero	1
	.zero	1
	.zero	1
	.zero	1
	.zero	1
	.zero	1
.LCPIa52ca417_9:
	.byte	0
	.byte	1
	.byte	1
	.byte	2
	.byte	3
	.byte	4
	.byte	4
	.byte	5
	.byte	6
	.byte	7
	.byte	7
	.byte	8
	.byte	9
	.byte	10
	.byte	10
	.byte	11
.LCPIa52ca417_10:
	.byte	4
	.byte	5
	.byte	5
	.byte	6
	.byte	7
	.byte	8
	.byte	8
	.byte	9
	.byte	10
	.byte	11
	.byte	11
	.byte	12
	.byte	13
	.byte	14
	.byte	14
	.byte	15
.LCPIa52ca417_11:
	.short	63
	.short	63
	.short	63
	.short	63
	.short	63
	.short	63
	.short	63
	.short	63
.LCPIa52ca417_12:
	.short	16128
	.short	16128
	.short	16128
	.short	16128
	.short	16128
	.short	16128
	.short	16128
	.short	16128
.LCPIa52ca417_13:
	.byte	128
	.byte	64
	.byte	32
	.byte	16
	.byte	8
	.byte	4
	.byte	2
	.byte	1
	.byte	0
	.byte	0
	.byte	0
	.byte	0
	.byte	0
	.byte	0
	.byte	0
	.byte	0
.LCPIa52ca417_14:
	.short	1
	.short	1
	.short	1
	.short	1
	.short	1
	.short	1
	.short	1
	.short	1
.LCPIa52ca417_15:
	.byte	0
	.byte	0
	.byte	0
	.byte	0
	.byte	0
	.byte	0
	.byte	0
	.byte	0
	.byte	128
	.byte	64
	.byte	32
	.byte	16
	.byte	8
	.byte	4
	.byte	2
	.byte	1
.LCPIa52ca417_16:
	.byte	255
	.byte	0
	.byte	0
	.byte	0
	.byte	255
	.byte	0
	.byte	0
	.byte	0
	.byte	255
	.byte	0
	.byte	0
	.byte	0
	.byte	255
	.byte	0
	.byte	0
	.byte	0
.LCPIa52ca417_17:
	.byte	63
	.byte	63
	.byte	63
	.byte	63
	.byte	63
	.byte	63
	.byte	63
	.byte	63
	.zero	1
	.zero	1
	.zero	1
	.zero	1
	.zero	1
	.zero	1
	.zero	1
	.zero	1
.LCPIa52ca417_18:
	.byte	4
	.byte	12
	.byte	5
	.byte	13
	.byte	6
	.byte	14
	.byte	7
	.byte	15
	.zero	1
	.zero	1
	.zero	1
	.zero	1
	.zero	1
	.zero	1
	.zero	1
	.zero	1
.LCPIa52ca417_19:
	.byte	63
	.byte	63
	.zero	1
	.zero	1
	.zero	1
	.zero	1
	.zero	1
	.zero	1
	.zero	1
	.zero	1
	.zero	1
	.zero	1
	.zero	1
	.zero	1
	.zero	1
	.zero	1
.LCPIa52ca417_20:
	.long	3
	.long	0
	.long	0
	.long	0
.LCPIa52ca417_22:
	.byte	4
	.byte	12
	.byte	5
	.byte	13
	.byte	6
	.byte	14
	.byte	7
	.byte	15
	.byte	0
	.byte	0
	.byte	0
	.byte	0
	.byte	0
	.byte	0
	.byte	0
	.byte	0
.LCPIa52ca417_23:
	.byte	1
	.byte	3
	.byte	5
	.byte	7
	.byte	9
	.byte	11
	.byte	13
	.byte	15
	.byte	0
	.byte	0
	.byte	0
	.byte	0
	.byte	0
	.byte	0
	.byte	0
	.byte	0
	.section	.rodata.cst4,"aM",@progbits,4
	.p2align	2, 0x0
.LCPIa52ca417_21:
	.long	3
	.section	.text.hll_estimator_fields.filter.with_fields.5da326502419fe7c,"ax",@progbits
	.p2align	4
	.type	hll_estimator_fields.filter.with_fields.5da326502419fe7c,@function
hll_estimator_fields.filter.with_fields.5da326502419fe7c:
	pushq	%rbp
	pushq	%r15
	pushq	%r14
	pushq	%r13
	pushq	%r12
	pushq	%rbx
	subq	$3072, %rsp
	movq	$0, (%rsp)
	subq	$3072, %rsp
	movq	$0, (%rsp)
	subq	$3072, %rsp
	movq	$0, (%rsp)
	subq	$3072, %rsp
	movq	$0, (%rsp)
	subq	$3072, %rsp
	movq	$0, (%rsp)
	subq	$1672, %rsp
	pxor	%xmm5, %xmm5
	movdqa	%xmm5, 224(%rsp)
	movdqa	%xmm5, 208(%rsp)
	movdqa	%xmm5, 192(%rsp)
	movdqa	%xmm5, 176(%rsp)
	movdqa	%xmm5, 160(%rsp)
	movdqa	%xmm5, 144(%rsp)
	cmpq	$8, %rdx
	jae	.LBBa52ca417_2
.LBBa52ca417_1:
	xorl	%ebp, %ebp
	jmp	.LBBa52ca417_366
.LBBa52ca417_2:
	movb	$1, %bpl
	cmpb	$7, 2(%rsi)
	jne	.LBBa52ca417_366
	movb	$2, %bpl
	cmpb	$1, 1(%rsi)
	jne	.LBBa52ca417_366
	movzbl	3(%rsi), %r13d
	leal	-4(%r13), %eax
	movb	$3, %bpl
	cmpb	$17, %al
	ja	.LBBa52ca417_366
	movq	%rdx, %rbx
	movzbl	7(%rsi), %edx
	movl	%edx, %eax
	shrl	$2, %eax
	andl	$3, %eax
	movb	$4, %bpl
	cmpl	$3, %eax
	je	.LBBa52ca417_366
	andl	$3, %edx
	leaq	.LJTIa52ca417_0(%rip), %rcx
	movslq	(%rcx,%rdx,4), %r8
	addq	%rcx, %r8
	jmpq	*%r8
.LBBa52ca417_7:
	movb	$2, %cl
	jmp	.LBBa52ca417_11
.LBBa52ca417_8:
	movb	$10, %cl
	jmp	.LBBa52ca417_11
.LBBa52ca417_9:
	movb	$5, %bpl
	jmp	.LBBa52ca417_366
.LBBa52ca417_10:
	movb	$3, %cl
.LBBa52ca417_11:
	movb	$6, %bpl
	cmpb	%cl, (%rsi)
	jne	.LBBa52ca417_366
	movzbl	%r13b, %ecx
	movzbl	5(%rsi), %r8d
	movl	%r8d, %r9d
	shrl	$2, %r9d
	andl	$1, %r9d
	movl	%r8d, %r15d
	shrl	$3, %r15d
	andl	$1, %r15d
	shrl	$4, %r8d
	andl	$1, %r8d
	shll	$8, %eax
	movl	%edx, %r10d
	shll	$16, %r10d
	movzbl	4(%rsi), %r11d
	shll	$24, %r11d
	orl	%eax, %r11d
	orl	%r10d, %r11d
	orq	%rcx, %r11
	shlq	$32, %r9
	shlq	$40, %r15
	orq	%r9, %r15
	orq	%r11, %r15
	shlq	$48, %r8
	movzbl	6(%rsi), %r14d
	shlq	$56, %r14
	orq	%r8, %r14
	orq	%r15, %r14
	movq	%r14, %r11
	shrq	$8, %r11
	movq	%r14, %rax
	shrq	$24, %rax
	movq	%r14, %r12
	shrq	$40, %r12
	movq	%r14, %r9
	shrq	$56, %r9
	cmpb	$2, %dl
	je	.LBBa52ca417_19
	movzbl	%dl, %ecx
	cmpl	$1, %ecx
	jne	.LBBa52ca417_32
	cmpb	$5, %al
	setb	%cl
	leal	-3(%r13), %edx
	cmpb	%al, %dl
	setb	%dl
	movb	$7, %bpl
	orb	%cl, %dl
	jne	.LBBa52ca417_366
	movzbl	%al, %ecx
	btq	$40, %r15
	jae	.LBBa52ca417_49
	cmpb	$9, %al
	jb	.LBBa52ca417_49
	cmpq	$11, %rbx
	jbe	.LBBa52ca417_1
	movl	8(%rsi), %edx
	movq	%rdx, %rax
	shrq	%cl, %rax
	addq	$-12, %rbx
	testq	%rax, %rax
	setne	%al
	movq	%rbx, %r8
	shrq	$2, %r8
	cmpq	%rdx, %r8
	setb	%r8b
	orb	%al, %r8b
	jne	.LBBa52ca417_58
	leaq	12(%rsi), %rax
	movq	%rax, 640(%rsp)
	movq	%rbx, 648(%rsp)
	movq	%rdx, 656(%rsp)
	cmpl	$128, %edx
	ja	.LBBa52ca417_58
	movq	%rcx, 48(%rsp)
	leaq	640(%rsp), %rax
	movq	%rdi, %r14
	movq	%rax, %rdi
	movq	%rsi, %r15
	movq	%r11, %r12
	movq	%rdx, %rbp
	callq	hll_sketch.raw_coupons.RawCoupons.differ
	movq	%rbp, %rdx
	pxor	%xmm5, %xmm5
	movq	%r14, %rdi
	movb	$9, %bpl
	testb	%al, %al
	je	.LBBa52ca417_366
	movq	%r12, %r11
	movq	%r15, %rsi
	movq	$0, 688(%rsp)
	movb	$1, %r15b
	movq	48(%rsp), %rcx
	jmp	.LBBa52ca417_59
.LBBa52ca417_19:
	movq	%r14, %r10
	shrq	$48, %r10
	leaq	-8(%rbx), %rdx
	cmpb	$2, %r11b
	je	.LBBa52ca417_38
	movzbl	%r11b, %r8d
	cmpl	$1, %r8d
	jne	.LBBa52ca417_47
	movl	$1, %r8d
	movq	%rcx, %rax
	shlq	%cl, %r8
	cmpq	$8, %rdx
	jb	.LBBa52ca417_42
	movq	%rdx, %rcx
	andq	$-8, %rcx
	cmpq	$8, %rcx
	je	.LBBa52ca417_42
	cmpq	$16, %rcx
	je	.LBBa52ca417_42
	orq	$4, %rdx
	andq	$-4, %rdx
	cmpq	$28, %rdx
	je	.LBBa52ca417_42
	movq	%rdi, 40(%rsp)
	movq	%rsi, 8(%rsp)
	movl	32(%rsi), %ecx
	xorl	%edx, %edx
	movb	$8, %bpl
	cmpq	%rcx, %r8
	jb	.LBBa52ca417_225
	movq	%r10, %r14
	movq	8(%rsp), %rcx
	cmpl	$0, 36(%rcx)
	movl	$0, %r15d
	movl	$0, %ecx
	movl	$0, %r8d
	movl	$0, %r12d
	movl	$0, %esi
	movq	%rsi, 16(%rsp)
	movl	$0, %esi
	movq	%rsi, 48(%rsp)
	movl	$0, %r9d
	movl	$0, %r11d
	movl	$0, %r10d
	movq	40(%rsp), %rdi
	jne	.LBBa52ca417_43
	movl	$3, %edx
	movl	%eax, %ecx
	shlq	%cl, %rdx
	addq	$-40, %rbx
	shrq	$2, %rdx
	cmpq	%rdx, %rbx
	jbe	.LBBa52ca417_224
	movq	8(%rsp), %rax
	movq	8(%rax), %rcx
	movq	%rcx, 48(%rsp)
	movq	16(%rax), %rcx
	movq	%rcx, 368(%rsp)
	movq	24(%rax), %rax
	movq	%rax, 320(%rsp)
	incl	%edx
	movl	$2863311531, %eax
	imulq	%rdx, %rax
	shrq	$33, %rax
	movq	%rax, 16(%rsp)
	leaq	(%rax,%rax,2), %rbx
	movl	$1, %esi
	movq	%rbx, %rdi
	callq	rattle_alloc@PLT
	testb	$1, %al
	je	.LBBa52ca417_475
	movq	%rdx, %r12
	andl	$1, %r14d
	movq	8(%rsp), %rax
	leaq	40(%rax), %rsi
	movq	%rdx, %rax
	subq	%rsi, %rax
	cmpq	%rbx, %rax
	jae	.LBBa52ca417_422
	movq	16(%rsp), %rcx
	movl	%ecx, %eax
	andl	$7, %eax
	decl	%ecx
	cmpl	$7, %ecx
	jae	.LBBa52ca417_453
	xorl	%ecx, %ecx
	jmp	.LBBa52ca417_456
.LBBa52ca417_32:
	movb	$7, %bpl
	cmpb	$3, %al
	jne	.LBBa52ca417_366
	movl	$4294967285, %eax
	addq	$11, %rax
	testq	%rax, %r15
	setne	%cl
	movq	$0, 688(%rsp)
	testq	%r9, %r9
	setne	%dl
	movb	$8, %bpl
	cmpl	$8, %r9d
	ja	.LBBa52ca417_366
	xorb	%dl, %cl
	je	.LBBa52ca417_366
	addq	$-8, %rbx
	testb	$1, %r12b
	movl	$8, %ecx
	cmovneq	%r9, %rcx
	xorl	%ebp, %ebp
	testq	%rax, %r15
	movl	$0, %eax
	cmoveq	%rcx, %rax
	leal	(,%rax,4), %ecx
	cmpq	%rcx, %rbx
	jb	.LBBa52ca417_366
	movq	%r9, (%rsp)
	movq	$3, 640(%rsp)
	pxor	%xmm0, %xmm0
	movdqu	%xmm0, 648(%rsp)
	movdqu	%xmm0, 664(%rsp)
	movdqu	%xmm0, 676(%rsp)
	testq	%rax, %rax
	je	.LBBa52ca417_92
	movl	$67108863, %ebp
	xorl	%r15d, %r15d
	xorl	%ecx, %ecx
	movq	%r11, 320(%rsp)
	jmp	.LBBa52ca417_131
.LBBa52ca417_38:
	movl	$1, %r14d
	shlq	%cl, %r14
	cmpq	$8, %rdx
	jb	.LBBa52ca417_42
	movq	%rdx, %rax
	andq	$-8, %rax
	cmpq	$8, %rax
	je	.LBBa52ca417_42
	cmpq	$16, %rax
	je	.LBBa52ca417_42
	orq	$4, %rdx
	andq	$-4, %rdx
	cmpq	$28, %rdx
	jne	.LBBa52ca417_221
.LBBa52ca417_42:
	xorl	%edx, %edx
	xorl	%ebp, %ebp
	xorl	%r15d, %r15d
	xorl	%ecx, %ecx
	xorl	%r8d, %r8d
	xorl	%r12d, %r12d
	movq	$0, 16(%rsp)
	movq	$0, 48(%rsp)
	xorl	%r9d, %r9d
	xorl	%r11d, %r11d
	xorl	%r10d, %r10d
.LBBa52ca417_43:
	testb	%dl, %dl
	je	.LBBa52ca417_366
	movq	%r12, %rbx
	movq	%rcx, 8(%rsp)
	movq	%r8, 96(%rsp)
	movq	%r11, %r8
	andq	$-256, %r8
	movabsq	$-4294967296, %rsi
	andq	%r9, %rsi
	movq	$0, 80(%rsp)
	movq	%r9, %rbp
	xorl	%r9d, %r9d
	movq	16(%rsp), %r12
	movq	%r12, 128(%rsp)
	movq	$0, (%rsp)
	xorl	%ecx, %ecx
	xorl	%edx, %edx
	movl	$0, 112(%rsp)
	movl	%r15d, %r13d
.LBBa52ca417_45:
	movzbl	%r10b, %r10d
	orq	%r9, %r10
	movzbl	%r11b, %r9d
	orq	%r8, %r9
	movl	%ebp, %r8d
	orq	%rsi, %r8
	shlq	$32, %rbx
	movl	96(%rsp), %eax
	orq	%rbx, %rax
	shlq	$32, %rcx
	andl	$-65536, %edx
	orq	%rcx, %rdx
	movzbl	112(%rsp), %ebp
	movl	%ebp, %ecx
	shll	$8, %ecx
	movzbl	%r15b, %r14d
	addq	%r14, %rdx
	orq	%rcx, %rdx
	movb	%r13b, 144(%rsp)
	movq	8(%rsp), %rbx
	movq	%rbx, 152(%rsp)
	movq	%rdx, 160(%rsp)
	movq	(%rsp), %r15
	movq	%r15, 168(%rsp)
	movq	%rax, 176(%rsp)
	movq	128(%rsp), %rsi
	movq	%rsi, 184(%rsp)
	movq	%r12, 192(%rsp)
	movq	48(%rsp), %r11
	movq	%r11, 200(%rsp)
	movq	%r8, 208(%rsp)
	movq	%r9, 216(%rsp)
	movq	%r10, 224(%rsp)
	movq	80(%rsp), %rcx
	movq	%rcx, 232(%rsp)
	leaq	.LJTIa52ca417_1(%rip), %rcx
	movslq	(%rcx,%rbx,4), %rdx
	addq	%rcx, %rdx
	leaq	160(%rsp), %r13
	movl	$0, 339(%rsp)
	movl	$0, 336(%rsp)
	movl	$0, 243(%rsp)
	movl	$0, 240(%rsp)
	movq	%rdi, 40(%rsp)
	jmpq	*%rdx
.LBBa52ca417_46:
	movzbl	152(%rsp), %eax
	movzbl	144(%rsp), %r9d
	leaq	.LJTIa52ca417_3(%rip), %rcx
	movslq	(%rcx,%rax,4), %rax
	addq	%rcx, %rax
	jmpq	*%rax
.LBBa52ca417_47:
	cmpq	$8, %rdx
	jb	.LBBa52ca417_1
	movq	%rdx, %r8
	andq	$-8, %r8
	cmpq	$8, %r8
	je	.LBBa52ca417_1
	cmpq	$16, %r8
	je	.LBBa52ca417_1
	orq	$4, %rdx
	andq	$-4, %rdx
	cmpq	$28, %rdx
	je	.LBBa52ca417_1
	movq	%r10, 80(%rsp)
	movl	$1, %edx
	movq	%rcx, 400(%rsp)
	shlq	%cl, %rdx
	movl	32(%rsi), %ecx
	movl	36(%rsi), %r8d
	cmpq	%rcx, %rdx
	setb	%cl
	movq	%rdx, 72(%rsp)
	movq	%r8, 112(%rsp)
	cmpq	%r8, %rdx
	setb	%dl
	orb	%cl, %dl
	movb	$8, %bpl
	jne	.LBBa52ca417_366
	movq	%r9, (%rsp)
	movq	%rdi, 40(%rsp)
	movq	8(%rsi), %rcx
	movq	%rcx, 368(%rsp)
	movq	16(%rsi), %rcx
	movq	%rcx, 320(%rsp)
	movq	%rsi, 8(%rsp)
	movq	24(%rsi), %rcx
	movq	%rcx, 360(%rsp)
	movq	112(%rsp), %rcx
	movq	%rcx, 16(%rsp)
	testb	$1, %r12b
	jne	.LBBa52ca417_363
	cmpq	$0, 112(%rsp)
	je	.LBBa52ca417_362
	movb	$7, %bpl
	cmpb	$26, %al
	movq	40(%rsp), %rdi
	ja	.LBBa52ca417_366
	andb	$31, %al
	movl	$1, %edx
	movl	%eax, %ecx
	shlq	%cl, %rdx
	movq	%rdx, 16(%rsp)
	jmp	.LBBa52ca417_363
.LBBa52ca417_49:
	movq	$0, 688(%rsp)
	cmpq	$12, %rbx
	jb	.LBBa52ca417_1
	shrq	$40, %r15
	movl	8(%rsi), %edx
	addq	$-12, %rbx
	jmp	.LBBa52ca417_59
.LBBa52ca417_58:
	movq	$0, 688(%rsp)
	movb	$1, %r15b
.LBBa52ca417_59:
	movl	$1, %r14d
	shlq	%cl, %r14
	movb	$8, %bpl
	cmpq	%rdx, %r14
	jbe	.LBBa52ca417_366
	testb	%r15b, %r15b
	movq	%r14, %r8
	cmovneq	%rdx, %r8
	leaq	(,%r8,4), %rax
	cmpq	%rax, %rbx
	jb	.LBBa52ca417_1
	movq	%r8, 16(%rsp)
	movq	%rdx, (%rsp)
	movq	%r11, 320(%rsp)
	movq	%rsi, 8(%rsp)
	movb	$12, %bpl
	cmpl	$60, %ecx
	ja	.LBBa52ca417_366
	movl	$4, %r12d
	shlq	%cl, %r12
	movl	$4, %esi
	movq	%rdi, 40(%rsp)
	movq	%r12, %rdi
	movq	%rcx, 48(%rsp)
	callq	rattle_alloc@PLT
	pxor	%xmm5, %xmm5
	movq	40(%rsp), %rdi
	testb	$1, %al
	je	.LBBa52ca417_366
	movq	%rdx, %rsi
	leaq	-4(%r12), %rdx
	movq	$0, 80(%rsp)
	movq	%rsi, %rdi
	movq	%rsi, %rbp
	xorl	%esi, %esi
	callq	memset@PLT
	movl	$0, -4(%rbp,%r12)
	movq	48(%rsp), %rax
	movq	%rax, 640(%rsp)
	movq	$1, 656(%rsp)
	movq	%rbp, 112(%rsp)
	movq	%rbp, 664(%rsp)
	movq	%r14, 672(%rsp)
	movq	%r14, 680(%rsp)
	movl	$0, 688(%rsp)
	cmpq	$0, 16(%rsp)
	je	.LBBa52ca417_294
	movq	$-1, %rax
	movq	48(%rsp), %rcx
	shlq	%cl, %rax
	addq	$12, 8(%rsp)
	notq	%rax
	cmpq	$64, %r14
	movl	$64, %edx
	cmovbq	%r14, %rdx
	testb	%r15b, %r15b
	je	.LBBa52ca417_259
	movq	$0, 80(%rsp)
	movq	8(%rsp), %rsi
	movq	%rbx, %r14
.LBBa52ca417_83:
	subq	$4, %r14
	jb	.LBBa52ca417_479
	movl	(%rsi), %r8d
	movb	$9, %bpl
	cmpq	$67108864, %r8
	jb	.LBBa52ca417_284
	movl	%r8d, %r9d
	andl	$67108863, %r9d
	movq	48(%rsp), %rcx
	shrl	%cl, %r9d
	addq	$4, %rsi
	orl	$1, %r9d
	movq	%rdx, %r10
	movq	%r8, %rcx
	movq	112(%rsp), %r12
.LBBa52ca417_86:
	andq	%rax, %rcx
	movl	(%r12,%rcx,4), %r11d
	testl	%r11d, %r11d
	je	.LBBa52ca417_89
	cmpl	%r8d, %r11d
	je	.LBBa52ca417_89
	addq	%r9, %rcx
	decq	%r10
	jne	.LBBa52ca417_86
	jmp	.LBBa52ca417_280
.LBBa52ca417_89:
	testl	%r11d, %r11d
	jne	.LBBa52ca417_284
	movq	112(%rsp), %rdi
	movl	%r8d, (%rdi,%rcx,4)
	movq	80(%rsp), %rdi
	incq	%rdi
	movq	%rdi, 80(%rsp)
	cmpq	16(%rsp), %rdi
	jne	.LBBa52ca417_83
	movq	16(%rsp), %rax
	jmp	.LBBa52ca417_293
.LBBa52ca417_64:
	movl	$4294967285, %r14d
	movq	%rax, %rdi
	callq	hll_kernels.kernels.weight_sums
	testq	%rax, %rax
	je	.LBBa52ca417_120
	bsrq	%rax, %rsi
	xorq	$63, %rsi
	leal	(%r14,%rsi), %ecx
	shlq	%cl, %rax
	shlq	$52, %rsi
	subq	%rsi, %rax
	movabsq	$4746794007248502784, %rsi
	addq	%rax, %rsi
	jmp	.LBBa52ca417_121
.LBBa52ca417_66:
	movq	%r12, %r8
	movl	112(%rsp), %r10d
	movl	%ebp, 80(%rsp)
	movq	%r15, %r12
	movb	$7, %cl
	cmpb	$1, %r8b
	jne	.LBBa52ca417_68
	movzbl	8(%r11), %ecx
	movl	$4, %edx
	shlq	%cl, %rdx
	cmpq	$8193, %rdx
	movl	$14, %edx
	movl	$7, %ecx
	cmovael	%edx, %ecx
.LBBa52ca417_68:
	movzbl	%cl, %ecx
	cmpb	%r14b, %cl
	movl	%r14d, %edx
	cmovbl	%ecx, %edx
	movzbl	%dl, %r8d
	movl	$1, %edx
	movl	%r8d, %ecx
	shlq	%cl, %rdx
	movl	$1, %r15d
	subb	%r8b, %r14b
	movzbl	%r14b, %r9d
	cmpb	$8, %r8b
	movq	%r8, 48(%rsp)
	movq	%r9, 16(%rsp)
	jae	.LBBa52ca417_102
	movq	%rdx, 96(%rsp)
	andl	$254, %edx
	movb	$16, %cl
	subb	%r10b, %cl
	setb	%al
	cmpl	$128, %edx
	jne	.LBBa52ca417_154
	testb	%al, %al
	jne	.LBBa52ca417_154
	movzbl	%cl, %eax
	movq	%rax, 112(%rsp)
	movl	$1, %r14d
	xorl	%ebp, %ebp
	xorl	%r13d, %r13d
	movq	%r12, %rsi
	jmp	.LBBa52ca417_74
.LBBa52ca417_72:
	movq	%rsi, %rcx
	pxor	%xmm0, %xmm0
	movdqa	%xmm0, 528(%rsp)
	movdqa	%xmm0, 512(%rsp)
	movdqa	%xmm0, 496(%rsp)
	movdqa	%xmm0, 480(%rsp)
	movdqa	%xmm0, 464(%rsp)
	movdqa	%xmm0, 448(%rsp)
	movdqa	%xmm0, 432(%rsp)
	movdqa	%xmm0, 416(%rsp)
	leaq	416(%rsp), %rbx
	movq	%rbx, %rdi
	movq	96(%rsp), %r15
	movq	%r15, %rsi
	leaq	192(%rsp), %r8
	movl	80(%rsp), %r9d
	callq	hll_registers.exception_map.max_with_registers.f8e44fc08f8602d9
	movq	%rbx, %rdi
	movq	%r15, %rsi
	callq	hll_kernels.kernels.weight_sums
	movq	16(%rsp), %r9
	movq	48(%rsp), %r8
.LBBa52ca417_73:
	movq	%r14, %rsi
	movl	%r9d, %ecx
	shrq	%cl, %rsi
	addq	%rdx, %r13
	addq	%rax, %rbp
	incq	%r14
	testq	%rsi, %rsi
	movq	%r12, %rsi
	jne	.LBBa52ca417_156
.LBBa52ca417_74:
	leaq	-1(%r14), %rdx
	movl	%r8d, %ecx
	shlq	%cl, %rdx
	movq	%rdx, %rax
	shrq	%rax
	movdqu	(%rsi,%rax), %xmm4
	movdqu	16(%rsi,%rax), %xmm3
	movdqu	32(%rsi,%rax), %xmm2
	movdqu	48(%rsi,%rax), %xmm0
	movdqa	.LCPIa52ca417_0(%rip), %xmm1
	movdqa	%xmm3, %xmm11
	pand	%xmm1, %xmm11
	movdqa	%xmm0, %xmm7
	pand	%xmm1, %xmm7
	movdqa	%xmm4, %xmm13
	pand	%xmm1, %xmm13
	movdqa	%xmm2, %xmm12
	pand	%xmm1, %xmm12
	psrlw	$4, %xmm3
	pand	%xmm1, %xmm3
	psrlw	$4, %xmm0
	pand	%xmm1, %xmm0
	psrlw	$4, %xmm4
	pand	%xmm1, %xmm4
	psrlw	$4, %xmm2
	pand	%xmm1, %xmm2
	movdqa	%xmm12, %xmm5
	pmaxub	%xmm2, %xmm5
	movdqa	%xmm13, %xmm6
	pmaxub	%xmm4, %xmm6
	pmaxub	%xmm5, %xmm6
	movdqa	%xmm7, %xmm5
	pmaxub	%xmm0, %xmm5
	movdqa	%xmm11, %xmm8
	pmaxub	%xmm3, %xmm8
	pmaxub	%xmm5, %xmm8
	pmaxub	%xmm6, %xmm8
	pcmpeqb	%xmm1, %xmm8
	pmovmskb	%xmm8, %eax
	testl	%eax, %eax
	jne	.LBBa52ca417_72
	movq	.LCPIa52ca417_13(%rip), %xmm1
	movdqa	%xmm1, %xmm9
	pshufb	%xmm13, %xmm9
	movdqa	%xmm1, %xmm8
	pshufb	%xmm11, %xmm8
	movdqa	%xmm1, %xmm14
	pshufb	%xmm12, %xmm14
	movdqa	%xmm1, %xmm10
	pshufb	%xmm7, %xmm10
	movdqa	.LCPIa52ca417_15(%rip), %xmm6
	movdqa	%xmm6, %xmm15
	pshufb	%xmm13, %xmm15
	movdqa	%xmm6, %xmm13
	pshufb	%xmm11, %xmm13
	movdqa	%xmm6, %xmm5
	pshufb	%xmm12, %xmm5
	movdqa	%xmm6, %xmm11
	pshufb	%xmm7, %xmm11
	movdqa	.LCPIa52ca417_14(%rip), %xmm7
	movdqa	.LCPIa52ca417_1(%rip), %xmm12
	pmaddubsw	%xmm12, %xmm14
	pmaddwd	%xmm7, %xmm14
	pmaddubsw	%xmm12, %xmm5
	pmaddwd	%xmm7, %xmm5
	pslld	$8, %xmm14
	paddd	%xmm5, %xmm14
	pmaddubsw	%xmm12, %xmm9
	pmaddwd	%xmm7, %xmm9
	pmaddubsw	%xmm12, %xmm15
	pmaddwd	%xmm7, %xmm15
	pslld	$8, %xmm9
	paddd	%xmm15, %xmm9
	paddd	%xmm14, %xmm9
	pmaddubsw	%xmm12, %xmm10
	pmaddwd	%xmm7, %xmm10
	pmaddubsw	%xmm12, %xmm11
	pmaddwd	%xmm7, %xmm11
	pslld	$8, %xmm10
	paddd	%xmm11, %xmm10
	pmaddubsw	%xmm12, %xmm8
	pmaddwd	%xmm7, %xmm8
	pmaddubsw	%xmm12, %xmm13
	pmaddwd	%xmm7, %xmm13
	pslld	$8, %xmm8
	paddd	%xmm13, %xmm8
	paddd	%xmm10, %xmm8
	paddd	%xmm9, %xmm8
	pshufd	$238, %xmm8, %xmm5
	paddd	%xmm8, %xmm5
	pshufd	$85, %xmm5, %xmm8
	paddd	%xmm5, %xmm8
	movd	%xmm8, %ecx
	movdqa	%xmm1, %xmm9
	pshufb	%xmm4, %xmm9
	movdqa	%xmm1, %xmm8
	pshufb	%xmm3, %xmm8
	movdqa	%xmm1, %xmm10
	pshufb	%xmm2, %xmm10
	movdqa	%xmm6, %xmm11
	pshufb	%xmm4, %xmm11
	movdqa	%xmm6, %xmm4
	pshufb	%xmm3, %xmm4
	movdqa	%xmm6, %xmm3
	pshufb	%xmm2, %xmm3
	pshufb	%xmm0, %xmm1
	pshufb	%xmm0, %xmm6
	pmaddubsw	%xmm12, %xmm9
	pmaddubsw	%xmm12, %xmm8
	pmaddubsw	%xmm12, %xmm10
	pmaddubsw	%xmm12, %xmm1
	pmaddubsw	%xmm12, %xmm11
	pmaddubsw	%xmm12, %xmm4
	pmaddubsw	%xmm12, %xmm3
	pmaddubsw	%xmm12, %xmm6
	pmaddwd	%xmm7, %xmm9
	pmaddwd	%xmm7, %xmm8
	pmaddwd	%xmm7, %xmm10
	pmaddwd	%xmm7, %xmm1
	pmaddwd	%xmm7, %xmm11
	pmaddwd	%xmm7, %xmm4
	pmaddwd	%xmm7, %xmm3
	pmaddwd	%xmm7, %xmm6
	pslld	$8, %xmm10
	paddd	%xmm3, %xmm10
	pslld	$8, %xmm9
	paddd	%xmm11, %xmm9
	paddd	%xmm10, %xmm9
	pslld	$8, %xmm1
	paddd	%xmm6, %xmm1
	pslld	$8, %xmm8
	paddd	%xmm4, %xmm8
	paddd	%xmm1, %xmm8
	paddd	%xmm9, %xmm8
	pshufd	$238, %xmm8, %xmm0
	paddd	%xmm8, %xmm0
	pshufd	$85, %xmm0, %xmm1
	paddd	%xmm0, %xmm1
	movd	%xmm1, %eax
	addq	%rcx, %rax
	movq	112(%rsp), %rcx
	shlq	%cl, %rax
	xorl	%edx, %edx
	jmp	.LBBa52ca417_73
.LBBa52ca417_76:
	movq	%rax, (%rsp)
	leaq	(%rsi,%rsi,2), %rcx
	movabsq	$-6148914691236517205, %rdx
	movq	%rcx, %rax
	mulq	%rdx
	movq	%rdx, %rbx
	shrq	$5, %rbx
	movq	%rbx, %rax
	shlq	$4, %rax
	leaq	(%rax,%rax,2), %rdx
	movq	%rcx, %rax
	movq	%rdx, 128(%rsp)
	subq	%rdx, %rax
	cmpq	$48, %rcx
	movq	%rax, 48(%rsp)
	jae	.LBBa52ca417_104
	xorl	%r15d, %r15d
	xorl	%ebp, %ebp
	xorl	%r14d, %r14d
	xorl	%r12d, %r12d
	jmp	.LBBa52ca417_109
.LBBa52ca417_92:
	xorl	%r15d, %r15d
.LBBa52ca417_93:
	movq	(%rsp), %r14
	cmpq	%r14, %r15
	jne	.LBBa52ca417_95
	movq	640(%rsp), %rdx
	movzbl	656(%rsp), %eax
	movq	%rax, 96(%rsp)
	movl	660(%rsp), %ebx
	movq	664(%rsp), %rax
	movq	%rax, 128(%rsp)
	movq	672(%rsp), %r12
	movq	680(%rsp), %rax
	movq	%rax, 48(%rsp)
	movl	688(%rsp), %ebp
	movl	%edx, %eax
	shrl	$8, %eax
	movl	%eax, 112(%rsp)
	movq	%rdx, %rcx
	shrq	$32, %rcx
	movq	$0, 80(%rsp)
	xorl	%r9d, %r9d
	xorl	%r10d, %r10d
	xorl	%r8d, %r8d
	xorl	%esi, %esi
	movl	%edx, %r15d
	movq	$0, 8(%rsp)
	jmp	.LBBa52ca417_45
.LBBa52ca417_95:
	cmpb	$0, 656(%rsp)
	movb	$8, %bpl
	je	.LBBa52ca417_366
	movq	%rdi, %rbx
.LBBa52ca417_97:
	cmpq	$0, 680(%rsp)
	je	.LBBa52ca417_99
	movq	664(%rsp), %rdi
	callq	rattle_dealloc@PLT
.LBBa52ca417_99:
	movq	%rbx, %rdi
	pxor	%xmm5, %xmm5
.LBBa52ca417_366:
	movb	$1, (%rdi)
	movb	%bpl, 1(%rdi)
	movdqu	%xmm5, 8(%rdi)
	movq	$0, 24(%rdi)
.LBBa52ca417_367:
	addq	$17032, %rsp
	popq	%rbx
	popq	%r12
	popq	%r13
	popq	%r14
	popq	%r15
	popq	%rbp
	retq
.LBBa52ca417_102:
	xorl	%ebp, %ebp
	xorl	%r13d, %r13d
	movq	%r12, (%rsp)
	movq	%rdx, %r12
.LBBa52ca417_103:
	leal	-1(%r15), %ebx
	movl	%r8d, %ecx
	shlq	%cl, %rbx
	leaq	640(%rsp), %r14
	movl	$16384, %edx
	movq	%r14, %rdi
	xorl	%esi, %esi
	callq	memset@PLT
	movq	%r14, %rdi
	movq	%r12, %rsi
	movl	%ebx, %edx
	movq	(%rsp), %rcx
	leaq	192(%rsp), %r8
	movl	80(%rsp), %r9d
	callq	hll_registers.exception_map.max_with_registers.f8e44fc08f8602d9
	movq	%r14, %rdi
	movq	%r12, %rsi
	callq	hll_kernels.kernels.weight_sums
	movq	48(%rsp), %r8
	movq	%r15, %rsi
	movq	16(%rsp), %rcx
	shrq	%cl, %rsi
	addq	%rax, %rbp
	addq	%rdx, %r13
	incq	%r15
	testq	%rsi, %rsi
	je	.LBBa52ca417_103
	jmp	.LBBa52ca417_156
.LBBa52ca417_104:
	movq	(%rsp), %rax
	leaq	32(%rax), %r14
	pxor	%xmm14, %xmm14
	xorl	%ebp, %ebp
	pxor	%xmm15, %xmm15
	pxor	%xmm12, %xmm12
	pxor	%xmm13, %xmm13
	xorl	%r15d, %r15d
	jmp	.LBBa52ca417_105
.LBBa52ca417_107:
	movdqa	%xmm1, 640(%rsp)
	movdqa	%xmm3, 656(%rsp)
	movdqa	%xmm0, 672(%rsp)
	movdqa	%xmm2, 688(%rsp)
	leaq	640(%rsp), %rax
	movq	%r13, %r12
	movq	%r15, %r13
	movq	%rdi, %r15
	movq	%rax, %rdi
	movdqa	%xmm12, 16(%rsp)
	movdqa	%xmm13, 80(%rsp)
	movdqa	%xmm14, 112(%rsp)
	movdqa	%xmm15, 96(%rsp)
	callq	hll_kernels.kernels.block_sums_above_least
	movdqa	96(%rsp), %xmm15
	movdqa	112(%rsp), %xmm14
	movdqa	80(%rsp), %xmm13
	movdqa	16(%rsp), %xmm12
	movq	%r15, %rdi
	movq	%r13, %r15
	movq	%r12, %r13
	addq	%rax, %r15
	addq	%rdx, %rbp
	addq	$48, %r14
	decq	%rbx
	je	.LBBa52ca417_108
.LBBa52ca417_105:
	movdqa	.LCPIa52ca417_9(%rip), %xmm0
	movdqu	-32(%r14), %xmm2
	movdqu	-20(%r14), %xmm4
	movdqu	-8(%r14), %xmm3
	movdqu	(%r14), %xmm5
	pshufb	%xmm0, %xmm2
	pshufb	%xmm0, %xmm4
	pshufb	.LCPIa52ca417_10(%rip), %xmm5
	pshufb	%xmm0, %xmm3
	movdqa	%xmm2, %xmm1
	psllw	$4, %xmm1
	pblendw	$170, %xmm2, %xmm1
	movdqa	%xmm3, %xmm0
	psllw	$4, %xmm0
	pblendw	$170, %xmm3, %xmm0
	movdqa	%xmm4, %xmm3
	psllw	$4, %xmm3
	pblendw	$170, %xmm4, %xmm3
	movdqa	%xmm5, %xmm2
	psllw	$4, %xmm2
	pblendw	$170, %xmm5, %xmm2
	movdqa	%xmm3, %xmm4
	psrlw	$4, %xmm4
	movdqa	%xmm0, %xmm6
	psrlw	$4, %xmm6
	movdqa	%xmm1, %xmm7
	psrlw	$4, %xmm7
	movdqa	%xmm2, %xmm5
	psrlw	$4, %xmm5
	movdqa	.LCPIa52ca417_11(%rip), %xmm8
	pand	%xmm8, %xmm7
	pand	%xmm8, %xmm6
	pand	%xmm8, %xmm4
	pand	%xmm8, %xmm5
	psrlw	$2, %xmm3
	psrlw	$2, %xmm0
	psrlw	$2, %xmm1
	psrlw	$2, %xmm2
	movdqa	.LCPIa52ca417_12(%rip), %xmm8
	pand	%xmm8, %xmm1
	por	%xmm7, %xmm1
	pand	%xmm8, %xmm0
	por	%xmm6, %xmm0
	pand	%xmm8, %xmm3
	por	%xmm4, %xmm3
	pand	%xmm8, %xmm2
	por	%xmm5, %xmm2
	movdqa	%xmm1, %xmm4
	pmaxub	%xmm0, %xmm4
	movdqa	%xmm3, %xmm5
	pmaxub	%xmm2, %xmm5
	pmaxub	%xmm4, %xmm5
	pcmpgtb	.LCPIa52ca417_0(%rip), %xmm5
	pmovmskb	%xmm5, %eax
	testl	%eax, %eax
	jne	.LBBa52ca417_107
	movq	.LCPIa52ca417_13(%rip), %xmm6
	movdqa	%xmm6, %xmm4
	pshufb	%xmm1, %xmm4
	movdqa	%xmm6, %xmm5
	pshufb	%xmm3, %xmm5
	movdqa	%xmm6, %xmm7
	pshufb	%xmm0, %xmm7
	pshufb	%xmm2, %xmm6
	movdqa	.LCPIa52ca417_1(%rip), %xmm9
	pmaddubsw	%xmm9, %xmm4
	movdqa	.LCPIa52ca417_14(%rip), %xmm10
	pmaddwd	%xmm10, %xmm4
	pmaddubsw	%xmm9, %xmm5
	pmaddwd	%xmm10, %xmm5
	pmaddubsw	%xmm9, %xmm7
	pmaddwd	%xmm10, %xmm7
	pmaddubsw	%xmm9, %xmm6
	pmaddwd	%xmm10, %xmm6
	movdqa	.LCPIa52ca417_15(%rip), %xmm11
	movdqa	%xmm11, %xmm8
	pshufb	%xmm1, %xmm8
	movdqa	%xmm11, %xmm1
	pshufb	%xmm3, %xmm1
	movdqa	%xmm11, %xmm3
	pshufb	%xmm0, %xmm3
	pshufb	%xmm2, %xmm11
	pmaddubsw	%xmm9, %xmm8
	pmaddwd	%xmm10, %xmm8
	pmaddubsw	%xmm9, %xmm1
	pmaddwd	%xmm10, %xmm1
	pmaddubsw	%xmm9, %xmm3
	pmaddwd	%xmm10, %xmm3
	pmaddubsw	%xmm9, %xmm11
	pmaddwd	%xmm10, %xmm11
	paddd	%xmm15, %xmm5
	paddd	%xmm6, %xmm5
	paddd	%xmm14, %xmm4
	paddd	%xmm7, %xmm4
	paddd	%xmm13, %xmm1
	paddd	%xmm11, %xmm1
	paddd	%xmm12, %xmm8
	paddd	%xmm3, %xmm8
	movdqa	%xmm8, %xmm12
	movdqa	%xmm1, %xmm13
	movdqa	%xmm4, %xmm14
	movdqa	%xmm5, %xmm15
	addq	$48, %r14
	decq	%rbx
	jne	.LBBa52ca417_105
.LBBa52ca417_108:
	paddd	%xmm15, %xmm14
	pshufd	$238, %xmm14, %xmm0
	paddd	%xmm14, %xmm0
	pshufd	$85, %xmm0, %xmm1
	paddd	%xmm0, %xmm1
	movd	%xmm1, %r12d
	shlq	$24, %r12
	paddd	%xmm13, %xmm12
	pshufd	$238, %xmm12, %xmm0
	paddd	%xmm12, %xmm0
	pshufd	$85, %xmm0, %xmm1
	paddd	%xmm0, %xmm1
	movd	%xmm1, %r14d
	shlq	$16, %r14
	movq	48(%rsp), %rax
.LBBa52ca417_109:
	movq	(%rsp), %rcx
	pxor	%xmm0, %xmm0
	movdqa	%xmm0, 688(%rsp)
	movdqa	%xmm0, 672(%rsp)
	movdqa	%xmm0, 656(%rsp)
	movdqa	%xmm0, 640(%rsp)
	cmpq	$48, %rax
	jae	.LBBa52ca417_118
	movl	%eax, %edi
	movq	%rax, %rsi
	movl	$2863311531, %eax
	imulq	%rax, %rdi
	shrq	$37, %rdi
	movl	%edi, %ecx
	shll	$4, %ecx
	leal	(%rcx,%rcx,2), %edx
	subl	%edx, %esi
	cmpq	$3, %rsi
	jb	.LBBa52ca417_116
	movq	%r12, 112(%rsp)
	movq	%r15, 80(%rsp)
	movq	%rbp, 16(%rsp)
	leaq	(%rcx,%rcx,2), %rcx
	movq	%rcx, 96(%rsp)
	shlq	$6, %rdi
	leaq	(%rsp,%rdi), %rcx
	addq	$640, %rcx
	imulq	%rsi, %rax
	shrq	$33, %rax
	cmpl	$24, %esi
	jae	.LBBa52ca417_241
	xorl	%edx, %edx
.LBBa52ca417_113:
	leaq	160(%rsp), %r13
	movq	16(%rsp), %rbp
	movq	80(%rsp), %r15
	movq	112(%rsp), %r12
	movq	(%rsp), %r9
.LBBa52ca417_114:
	movq	128(%rsp), %rdi
	addq	96(%rsp), %rdi
	leaq	(%rdx,%rdx,2), %rsi
	addq	%rdi, %rsi
	addq	%r9, %rsi
	addq	$2, %rsi
.LBBa52ca417_115:
	movzbl	-2(%rsi), %edi
	movzbl	-1(%rsi), %r8d
	movzbl	(%rsi), %r9d
	shll	$8, %r8d
	movl	%r9d, %r10d
	shll	$16, %r10d
	orl	%r8d, %r10d
	orl	%edi, %r8d
	shrl	$6, %r8d
	shrl	$12, %r10d
	shrb	$2, %r9b
	andb	$63, %r10b
	movd	%edi, %xmm0
	pinsrb	$1, %r8d, %xmm0
	pand	.LCPIa52ca417_19(%rip), %xmm0
	movd	(%rcx,%rdx,4), %xmm1
	movzbl	%r10b, %edi
	pinsrb	$2, %edi, %xmm0
	movzbl	%r9b, %edi
	pinsrb	$3, %edi, %xmm0
	pmaxub	%xmm1, %xmm0
	movd	%xmm0, (%rcx,%rdx,4)
	incq	%rdx
	addq	$3, %rsi
	cmpq	%rdx, %rax
	jne	.LBBa52ca417_115
.LBBa52ca417_116:
	movl	$4294967285, %ebx
	movdqa	640(%rsp), %xmm0
	movdqa	656(%rsp), %xmm1
	movdqa	672(%rsp), %xmm2
	movdqa	688(%rsp), %xmm3
	movdqa	%xmm3, 464(%rsp)
	movdqa	%xmm2, 448(%rsp)
	movdqa	%xmm1, 432(%rsp)
	movdqa	%xmm0, 416(%rsp)
	imull	$171, 48(%rsp), %eax
	shrl	$8, %eax
	addb	%al, %al
	andb	$-4, %al
	movzbl	%al, %esi
	leaq	416(%rsp), %rdi
	callq	hll_kernels.kernels.weight_sums
	addq	%r15, %r14
	addq	%r12, %r14
	addq	%rbp, %rdx
	addq	%rax, %r14
	je	.LBBa52ca417_163
	bsrq	%r14, %rax
	xorq	$63, %rax
	leal	(%rbx,%rax), %ecx
	shlq	%cl, %r14
	shlq	$52, %rax
	subq	%rax, %r14
	movabsq	$4746794007248502784, %rsi
	addq	%r14, %rsi
	jmp	.LBBa52ca417_164
.LBBa52ca417_118:
	movq	128(%rsp), %rax
	addq	%rcx, %rax
	addq	$32, %rax
	leaq	640(%rsp), %rcx
	.p2align	4
.LBBa52ca417_119:
	movdqa	.LCPIa52ca417_9(%rip), %xmm0
	movdqu	-32(%rax), %xmm1
	movdqu	-20(%rax), %xmm2
	movdqu	-8(%rax), %xmm4
	movdqu	(%rax), %xmm5
	pshufb	%xmm0, %xmm1
	pshufb	%xmm0, %xmm2
	pshufb	%xmm0, %xmm4
	pshufb	.LCPIa52ca417_10(%rip), %xmm5
	movdqa	%xmm2, %xmm0
	psllw	$4, %xmm0
	pblendw	$170, %xmm2, %xmm0
	movdqa	%xmm1, %xmm3
	psllw	$4, %xmm3
	pblendw	$170, %xmm1, %xmm3
	movdqa	%xmm4, %xmm1
	psllw	$4, %xmm1
	pblendw	$170, %xmm4, %xmm1
	movdqa	%xmm5, %xmm2
	psllw	$4, %xmm2
	pblendw	$170, %xmm5, %xmm2
	movdqa	%xmm1, %xmm4
	psrlw	$4, %xmm4
	movdqa	%xmm3, %xmm6
	psrlw	$4, %xmm6
	movdqa	%xmm0, %xmm7
	psrlw	$4, %xmm7
	movdqa	%xmm2, %xmm5
	psrlw	$4, %xmm5
	movdqa	.LCPIa52ca417_11(%rip), %xmm8
	pand	%xmm8, %xmm7
	pand	%xmm8, %xmm6
	pand	%xmm8, %xmm4
	pand	%xmm8, %xmm5
	psrlw	$2, %xmm1
	psrlw	$2, %xmm3
	psrlw	$2, %xmm0
	psrlw	$2, %xmm2
	movdqa	.LCPIa52ca417_12(%rip), %xmm8
	pand	%xmm8, %xmm0
	por	%xmm7, %xmm0
	pand	%xmm8, %xmm3
	por	%xmm6, %xmm3
	pand	%xmm8, %xmm1
	por	%xmm4, %xmm1
	pand	%xmm8, %xmm2
	por	%xmm5, %xmm2
	movdqu	(%rcx), %xmm4
	pmaxub	%xmm3, %xmm4
	movdqu	16(%rcx), %xmm3
	pmaxub	%xmm0, %xmm3
	movdqu	32(%rcx), %xmm0
	pmaxub	%xmm1, %xmm0
	movdqu	48(%rcx), %xmm1
	pmaxub	%xmm2, %xmm1
	movdqu	%xmm0, 32(%rcx)
	movdqu	%xmm1, 48(%rcx)
	movdqu	%xmm4, (%rcx)
	movdqu	%xmm3, 16(%rcx)
	addq	$48, %rax
	addq	$64, %rcx
	jmp	.LBBa52ca417_119
.LBBa52ca417_120:
	xorl	%esi, %esi
.LBBa52ca417_121:
	testq	%rdx, %rdx
	je	.LBBa52ca417_123
	bsrq	%rdx, %r8
	xorq	$63, %r8
	addl	%r8d, %r14d
	movl	%r14d, %ecx
	shlq	%cl, %rdx
	xorq	$1023, %r8
	shlq	$52, %r8
	movabsq	$-4503599627370496, %rax
	addq	%r8, %rax
	addq	%rdx, %rax
	jmp	.LBBa52ca417_124
.LBBa52ca417_123:
	xorl	%eax, %eax
.LBBa52ca417_124:
	movl	$0, 339(%rsp)
	movl	$0, 336(%rsp)
.LBBa52ca417_125:
	movq	$0, 200(%rsp)
	movq	%rsi, 208(%rsp)
	movq	%rax, 216(%rsp)
	movb	$1, 224(%rsp)
	movl	336(%rsp), %eax
	movl	339(%rsp), %ecx
	movl	%eax, 225(%rsp)
	movl	%ecx, 228(%rsp)
	jmp	.LBBa52ca417_168
.LBBa52ca417_126:
	addq	$4, %r14
	testb	%r11b, %r11b
	leaq	664(%rsp), %rdx
	cmoveq	%rdx, %r14
	leaq	-2(%r15), %rdx
	cmpq	$2, %rdx
	movl	$2, %r8d
	cmovbq	%rdx, %r8
	movl	%r8d, %r8d
	cmpq	$4, %rdx
	movl	$4, %r10d
	cmovbq	%rdx, %r10
	movl	%r10d, %edx
	movq	(%rbx,%r8,4), %xmm0
	movq	(%rbx,%rdx,4), %xmm1
	movq	-8(%rbx,%r15,4), %xmm2
	punpckldq	%xmm1, %xmm0
	pshufd	$96, %xmm0, %xmm0
	punpckldq	%xmm1, %xmm2
	pshufd	$227, %xmm2, %xmm1
	pinsrd	$0, (%rbx), %xmm0
	pinsrd	$3, (%r14), %xmm1
	movd	%r9d, %xmm2
	pshufd	$0, %xmm2, %xmm2
	pcmpeqd	%xmm2, %xmm1
	pcmpeqd	%xmm2, %xmm0
	packssdw	%xmm1, %xmm0
	pmovmskb	%xmm0, %edx
.LBBa52ca417_127:
	testl	%edx, %edx
	jne	.LBBa52ca417_254
.LBBa52ca417_128:
	cmpb	$0, 656(%rsp)
	je	.LBBa52ca417_141
	movq	664(%rsp), %rdx
	movl	%r9d, (%rdx,%r15,4)
.LBBa52ca417_130:
	movq	320(%rsp), %r11
	movq	648(%rsp), %r15
	incq	%r15
	cmpl	%ebp, %r9d
	cmoval	%r9d, %ebp
	movq	%r15, 648(%rsp)
	incq	%rcx
	cmpq	%rax, %rcx
	jae	.LBBa52ca417_93
.LBBa52ca417_131:
	testb	$1, %r12b
	je	.LBBa52ca417_138
	movl	8(%rsi,%rcx,4), %r9d
	cmpl	%ebp, %r9d
	ja	.LBBa52ca417_128
.LBBa52ca417_133:
	movzbl	656(%rsp), %r11d
	cmpl	$67108864, %r9d
	jb	.LBBa52ca417_254
	testb	%r11b, %r11b
	movq	664(%rsp), %r14
	movq	%r14, %rbx
	leaq	660(%rsp), %rdx
	cmoveq	%rdx, %rbx
	testq	%r15, %r15
	je	.LBBa52ca417_128
	cmpq	$2, %r15
	ja	.LBBa52ca417_142
	cmpl	%r9d, (%rbx)
	je	.LBBa52ca417_254
	cmpl	%r9d, -4(%rbx,%r15,4)
	jne	.LBBa52ca417_128
	jmp	.LBBa52ca417_254
.LBBa52ca417_138:
	movl	8(%rsi,%rcx,4), %r9d
	cmpl	%ebp, %r9d
	ja	.LBBa52ca417_128
	testl	%r9d, %r9d
	jne	.LBBa52ca417_133
	incq	%rcx
	cmpq	%rax, %rcx
	jb	.LBBa52ca417_138
	jmp	.LBBa52ca417_93
.LBBa52ca417_141:
	movl	%r9d, 660(%rsp,%r15,4)
	jmp	.LBBa52ca417_130
.LBBa52ca417_142:
	cmpq	$8, %r15
	jbe	.LBBa52ca417_126
	movd	%r9d, %xmm0
	cmpq	$17, %r15
	jae	.LBBa52ca417_145
	leaq	4(%r14), %rdx
	movq	%rdx, 80(%rsp)
	leaq	8(%r14), %rdx
	movq	%rdx, 16(%rsp)
	leaq	12(%r14), %rdx
	movq	%rdx, 48(%rsp)
	leaq	16(%r14), %rdx
	leaq	20(%r14), %r8
	leaq	24(%r14), %r10
	movq	%r10, 8(%rsp)
	addq	$28, %r14
	testb	%r11b, %r11b
	leaq	676(%rsp), %r10
	cmoveq	%r10, %rdx
	movd	(%rdx), %xmm1
	leaq	680(%rsp), %rdx
	cmoveq	%rdx, %r8
	pinsrd	$1, (%r8), %xmm1
	leaq	684(%rsp), %rdx
	movq	8(%rsp), %r8
	cmoveq	%rdx, %r8
	pinsrd	$2, (%r8), %xmm1
	leaq	688(%rsp), %rdx
	cmoveq	%rdx, %r14
	pinsrd	$3, (%r14), %xmm1
	movdqu	-32(%rbx,%r15,4), %xmm2
	movdqu	-16(%rbx,%r15,4), %xmm3
	movd	(%rbx), %xmm4
	leaq	664(%rsp), %rdx
	movq	80(%rsp), %r8
	cmoveq	%rdx, %r8
	pinsrd	$1, (%r8), %xmm4
	leaq	668(%rsp), %rdx
	movq	16(%rsp), %r8
	cmoveq	%rdx, %r8
	pinsrd	$2, (%r8), %xmm4
	leaq	672(%rsp), %rdx
	movq	48(%rsp), %r8
	cmoveq	%rdx, %r8
	pinsrd	$3, (%r8), %xmm4
	pshufd	$0, %xmm0, %xmm0
	pcmpeqd	%xmm0, %xmm4
	pcmpeqd	%xmm0, %xmm1
	packssdw	%xmm1, %xmm4
	pcmpeqd	%xmm0, %xmm3
	pcmpeqd	%xmm0, %xmm2
	packssdw	%xmm3, %xmm2
	packsswb	%xmm2, %xmm4
	pmovmskb	%xmm4, %edx
	jmp	.LBBa52ca417_127
.LBBa52ca417_145:
	pshufd	$0, %xmm0, %xmm0
	xorl	%r14d, %r14d
	movq	%r15, %r10
.LBBa52ca417_146:
	movdqu	(%rbx,%r14,4), %xmm1
	movdqu	16(%rbx,%r14,4), %xmm2
	movdqu	32(%rbx,%r14,4), %xmm3
	movdqu	48(%rbx,%r14,4), %xmm4
	pcmpeqd	%xmm0, %xmm2
	pcmpeqd	%xmm0, %xmm1
	packssdw	%xmm2, %xmm1
	pcmpeqd	%xmm0, %xmm3
	pcmpeqd	%xmm0, %xmm4
	packssdw	%xmm4, %xmm3
	packsswb	%xmm3, %xmm1
	pmovmskb	%xmm1, %edx
	testl	%edx, %edx
	jne	.LBBa52ca417_148
	addq	$16, %r14
	addq	$-16, %r10
	cmpq	$15, %r10
	ja	.LBBa52ca417_146
.LBBa52ca417_148:
	cmpq	$8, %r10
	pxor	%xmm5, %xmm5
	jb	.LBBa52ca417_153
	movq	%r15, %rdx
	subq	%r14, %rdx
	leaq	(%rbx,%r14,4), %r8
.LBBa52ca417_150:
	movdqu	(%r8), %xmm1
	movdqu	16(%r8), %xmm2
	pcmpeqd	%xmm0, %xmm2
	pcmpeqd	%xmm0, %xmm1
	packssdw	%xmm2, %xmm1
	pmovmskb	%xmm1, %r10d
	testl	%r10d, %r10d
	jne	.LBBa52ca417_152
	addq	$-8, %rdx
	addq	$32, %r8
	cmpq	$7, %rdx
	ja	.LBBa52ca417_150
	jmp	.LBBa52ca417_153
.LBBa52ca417_152:
	cmpq	$7, %rdx
	ja	.LBBa52ca417_254
.LBBa52ca417_153:
	movdqu	-32(%rbx,%r15,4), %xmm1
	movdqu	-16(%rbx,%r15,4), %xmm2
	pcmpeqd	%xmm0, %xmm2
	pcmpeqd	%xmm0, %xmm1
	packssdw	%xmm2, %xmm1
	pmovmskb	%xmm1, %edx
	jmp	.LBBa52ca417_127
.LBBa52ca417_154:
	movl	$1, %r14d
	xorl	%ebp, %ebp
	xorl	%r13d, %r13d
	movq	%r12, (%rsp)
	movl	80(%rsp), %r12d
	movq	96(%rsp), %r15
.LBBa52ca417_155:
	leal	-1(%r14), %edx
	movl	%r8d, %ecx
	shlq	%cl, %rdx
	pxor	%xmm0, %xmm0
	movdqa	%xmm0, 528(%rsp)
	movdqa	%xmm0, 512(%rsp)
	movdqa	%xmm0, 496(%rsp)
	movdqa	%xmm0, 480(%rsp)
	movdqa	%xmm0, 464(%rsp)
	movdqa	%xmm0, 448(%rsp)
	movdqa	%xmm0, 432(%rsp)
	movdqa	%xmm0, 416(%rsp)
	leaq	416(%rsp), %rbx
	movq	%rbx, %rdi
	movq	%r15, %rsi
	movq	(%rsp), %rcx
	leaq	192(%rsp), %r8
	movl	%r12d, %r9d
	callq	hll_registers.exception_map.max_with_registers.f8e44fc08f8602d9
	movq	%rbx, %rdi
	movq	%r15, %rsi
	callq	hll_kernels.kernels.weight_sums
	movq	48(%rsp), %r8
	movq	%r14, %rsi
	movq	16(%rsp), %rcx
	shrq	%cl, %rsi
	addq	%rax, %rbp
	addq	%rdx, %r13
	incq	%r14
	testq	%rsi, %rsi
	je	.LBBa52ca417_155
.LBBa52ca417_156:
	movl	$4294967285, %eax
	testq	%rbp, %rbp
	je	.LBBa52ca417_158
	bsrq	%rbp, %rdx
	xorq	$63, %rdx
	leal	(%rax,%rdx), %ecx
	shlq	%cl, %rbp
	shlq	$52, %rdx
	subq	%rdx, %rbp
	movabsq	$4746794007248502784, %rsi
	addq	%rbp, %rsi
	jmp	.LBBa52ca417_159
.LBBa52ca417_158:
	xorl	%esi, %esi
.LBBa52ca417_159:
	leaq	160(%rsp), %r12
	testq	%r13, %r13
	je	.LBBa52ca417_161
	bsrq	%r13, %rdx
	xorq	$63, %rdx
	addl	%edx, %eax
	movl	%eax, %ecx
	shlq	%cl, %r13
	xorq	$1023, %rdx
	shlq	$52, %rdx
	movabsq	$-4503599627370496, %rax
	addq	%rdx, %rax
	addq	%r13, %rax
	jmp	.LBBa52ca417_162
.LBBa52ca417_161:
	xorl	%eax, %eax
.LBBa52ca417_162:
	movl	$0, 243(%rsp)
	movl	$0, 240(%rsp)
	movl	240(%rsp), %ecx
	movl	243(%rsp), %edx
	movl	%edx, 339(%rsp)
	movl	%ecx, 336(%rsp)
	movzbl	8(%rsp), %ecx
	leaq	.LJTIa52ca417_2(%rip), %rdx
	movslq	(%rdx,%rcx,4), %rcx
	addq	%rdx, %rcx
	movq	%r12, %r13
	jmpq	*%rcx
.LBBa52ca417_163:
	xorl	%esi, %esi
.LBBa52ca417_164:
	testq	%rdx, %rdx
	je	.LBBa52ca417_166
	bsrq	%rdx, %r8
	xorq	$63, %r8
	addl	%r8d, %ebx
	movl	%ebx, %ecx
	shlq	%cl, %rdx
	xorq	$1023, %r8
	shlq	$52, %r8
	movabsq	$-4503599627370496, %rax
	addq	%r8, %rax
	addq	%rdx, %rax
	jmp	.LBBa52ca417_167
.LBBa52ca417_166:
	xorl	%eax, %eax
.LBBa52ca417_167:
	movl	$0, 243(%rsp)
	movl	$0, 240(%rsp)
	movl	240(%rsp), %ecx
	movl	243(%rsp), %edx
	movl	%edx, 339(%rsp)
	movl	%ecx, 336(%rsp)
	movzbl	8(%rsp), %ecx
	leaq	.LJTIa52ca417_2(%rip), %rdx
	movslq	(%rdx,%rcx,4), %rcx
	addq	%rdx, %rcx
	jmpq	*%rcx
.LBBa52ca417_168:
	movzbl	152(%rsp), %eax
	movzbl	144(%rsp), %r9d
	leaq	.LJTIa52ca417_3(%rip), %rcx
	movslq	(%rcx,%rax,4), %rax
	addq	%rcx, %rax
	jmpq	*%rax
.LBBa52ca417_169:
	movl	216(%rsp), %eax
	pxor	%xmm0, %xmm0
	movdqa	%xmm0, 640(%rsp)
	movdqa	%xmm0, 656(%rsp)
	movq	168(%rsp), %rcx
	xorl	%edx, %edx
	testq	%rcx, %rcx
	sete	%dl
	shll	$2, %eax
	andl	$12, %eax
	shlq	$56, %rax
	movzbl	%cl, %ecx
	shlq	$48, %rcx
	orq	%rax, %rcx
	shlq	$42, %rdx
	orq	%rcx, %rdx
	shll	$24, %r9d
	orq	%rdx, %r9
	movabsq	$8808978383106, %rax
	orq	%r9, %rax
	movq	%rax, 416(%rsp)
	leaq	640(%rsp), %rdi
	leaq	416(%rsp), %rdx
	movl	$8, %ecx
	movq	%r13, %rsi
	callq	hll_coupons.container.Container.image.5da326502419fe7c
	movzbl	640(%rsp), %r15d
	movzbl	641(%rsp), %r14d
	movq	648(%rsp), %rbp
	movq	656(%rsp), %r13
	movq	664(%rsp), %r12
	movzbl	152(%rsp), %edx
	movq	168(%rsp), %rax
	movq	176(%rsp), %rdi
	movq	184(%rsp), %rcx
	movq	192(%rsp), %r9
	movq	200(%rsp), %r10
	leaq	.LJTIa52ca417_4(%rip), %rsi
	movslq	(%rsi,%rdx,4), %rdx
	addq	%rsi, %rdx
	jmpq	*%rdx
.LBBa52ca417_170:
	movq	$0, 208(%rsp)
	movq	%rsi, 216(%rsp)
	movq	%rax, 224(%rsp)
	movb	$1, 232(%rsp)
	movl	336(%rsp), %eax
	movl	339(%rsp), %ecx
	movl	%eax, 233(%rsp)
	movl	%ecx, 236(%rsp)
	movzbl	152(%rsp), %eax
	movzbl	144(%rsp), %r9d
	leaq	.LJTIa52ca417_3(%rip), %rcx
	movslq	(%rcx,%rax,4), %rax
	addq	%rcx, %rax
	jmpq	*%rax
.LBBa52ca417_171:
	movq	$0, 200(%rsp)
	movq	%rsi, 208(%rsp)
	movq	%rax, 216(%rsp)
	movb	$1, 224(%rsp)
	movl	336(%rsp), %eax
	movl	339(%rsp), %ecx
	movl	%eax, 225(%rsp)
	movl	%ecx, 228(%rsp)
	movzbl	152(%rsp), %eax
	movzbl	144(%rsp), %r9d
	leaq	.LJTIa52ca417_3(%rip), %rcx
	movslq	(%rcx,%rax,4), %rax
	addq	%rcx, %rax
	jmpq	*%rax
.LBBa52ca417_172:
	movzbl	216(%rsp), %eax
	pxor	%xmm0, %xmm0
	movdqa	%xmm0, 640(%rsp)
	movdqa	%xmm0, 656(%rsp)
	movl	168(%rsp), %ecx
	shlb	$2, %al
	andb	$12, %al
	movd	.LCPIa52ca417_21(%rip), %xmm0
	movl	$1, %edx
	pinsrb	$1, %edx, %xmm0
	incb	%al
	movl	$7, %edx
	pinsrb	$2, %edx, %xmm0
	pinsrb	$3, %r9d, %xmm0
	pinsrb	$4, 160(%rsp), %xmm0
	movl	$8, %edx
	pinsrb	$5, %edx, %xmm0
	movzbl	%al, %eax
	pinsrb	$7, %eax, %xmm0
	movq	%xmm0, 416(%rsp)
	movl	%ecx, 424(%rsp)
	leaq	640(%rsp), %rdi
	leaq	416(%rsp), %rdx
	movl	$12, %ecx
	movq	%r13, %rsi
	callq	hll_coupons.container.Container.image.5da326502419fe7c
	movzbl	640(%rsp), %r15d
	movzbl	641(%rsp), %r14d
	movq	648(%rsp), %rbp
	movq	656(%rsp), %r13
	movq	664(%rsp), %r12
	movzbl	152(%rsp), %edx
	movq	168(%rsp), %rax
	movq	176(%rsp), %rdi
	movq	184(%rsp), %rcx
	movq	192(%rsp), %r9
	movq	200(%rsp), %r10
	leaq	.LJTIa52ca417_4(%rip), %rsi
	movslq	(%rsi,%rdx,4), %rdx
	addq	%rsi, %rdx
	jmpq	*%rdx
.LBBa52ca417_173:
	movq	%r13, %r14
	movq	176(%rsp), %r15
	movq	184(%rsp), %r12
	cmpb	$1, 164(%rsp)
	jne	.LBBa52ca417_179
	movl	168(%rsp), %r13d
	jmp	.LBBa52ca417_233
.LBBa52ca417_175:
	leaq	208(%rsp), %rcx
	pxor	%xmm0, %xmm0
	movdqa	%xmm0, 256(%rsp)
	movdqa	%xmm0, 240(%rsp)
	cmpb	$1, 192(%rsp)
	jne	.LBBa52ca417_182
	movq	200(%rsp), %rax
	movq	16(%rax), %rax
	jmp	.LBBa52ca417_183
.LBBa52ca417_177:
	movq	176(%rsp), %r15
	movq	184(%rsp), %rax
	cmpb	$1, 164(%rsp)
	leaq	(%rax,%rax,2), %r14
	jne	.LBBa52ca417_185
	movl	168(%rsp), %ebx
	jmp	.LBBa52ca417_206
.LBBa52ca417_179:
	movq	%r12, %rbp
	shrq	$13, %rbp
	movq	%r9, (%rsp)
	je	.LBBa52ca417_231
	xorl	%r13d, %r13d
	movq	%r15, %rbx
.LBBa52ca417_181:
	movl	$8192, %esi
	movq	%rbx, %rdi
	callq	hll_kernels.kernels.zeros_in
	addq	%rax, %r13
	addq	$8192, %rbx
	decq	%rbp
	jne	.LBBa52ca417_181
	jmp	.LBBa52ca417_232
.LBBa52ca417_182:
	xorl	%eax, %eax
.LBBa52ca417_183:
	movl	164(%rsp), %edx
	movdqu	(%rcx), %xmm0
	movdqu	16(%rcx), %xmm1
	movdqa	%xmm0, 640(%rsp)
	movdqa	%xmm1, 656(%rsp)
	movl	%edx, 672(%rsp)
	movl	%eax, 676(%rsp)
	movzbl	160(%rsp), %ecx
	decb	%cl
	movl	$1, %edx
	shlq	%cl, %rdx
	leaq	(%rdx,%rax,4), %rcx
	addq	$40, %rcx
	movzbl	161(%rsp), %eax
	shll	$24, %eax
	leal	(%rax,%r9), %edx
	addl	$524288, %edx
	leaq	240(%rsp), %rdi
	leaq	640(%rsp), %rsi
	callq	hll_registers.preamble.Preamble.start_image.f8e44fc08f8602d9
	cmpb	$0, 240(%rsp)
	je	.LBBa52ca417_192
	movb	$1, %r15b
	movzbl	241(%rsp), %r14d
	xorl	%r12d, %r12d
	movzbl	152(%rsp), %edx
	movq	168(%rsp), %rax
	movq	176(%rsp), %rdi
	movq	184(%rsp), %rcx
	movq	192(%rsp), %r9
	movq	200(%rsp), %r10
	leaq	.LJTIa52ca417_4(%rip), %rsi
	movslq	(%rsi,%rdx,4), %rdx
	addq	%rsi, %rdx
	xorl	%r13d, %r13d
	xorl	%ebp, %ebp
	jmpq	*%rdx
.LBBa52ca417_185:
	movabsq	$-6148914691236517205, %rcx
	movq	%r14, %rax
	mulq	%rcx
	shrq	$12, %rdx
	movq	%rdx, %rax
	shlq	$11, %rax
	leaq	(%rax,%rax,2), %r11
	movq	%r14, %rsi
	subq	%r11, %rsi
	xorl	%ebx, %ebx
	cmpq	$6144, %r14
	jb	.LBBa52ca417_190
	movq	%r15, %rcx
	xorl	%r8d, %r8d
.LBBa52ca417_187:
	pxor	%xmm4, %xmm4
	movl	$32, %eax
	pxor	%xmm3, %xmm3
	pxor	%xmm2, %xmm2
	pxor	%xmm1, %xmm1
	pxor	%xmm0, %xmm0
.LBBa52ca417_188:
	movdqa	.LCPIa52ca417_9(%rip), %xmm5
	movdqu	-32(%rcx,%rax), %xmm6
	movdqu	-20(%rcx,%rax), %xmm7
	movdqu	-8(%rcx,%rax), %xmm8
	movdqu	(%rcx,%rax), %xmm9
	pshufb	%xmm5, %xmm6
	pshufb	%xmm5, %xmm7
	pshufb	%xmm5, %xmm8
	pshufb	.LCPIa52ca417_10(%rip), %xmm9
	movdqa	%xmm6, %xmm5
	psllw	$4, %xmm5
	pblendw	$170, %xmm6, %xmm5
	movdqa	%xmm7, %xmm6
	psllw	$4, %xmm6
	pblendw	$170, %xmm7, %xmm6
	movdqa	%xmm8, %xmm7
	psllw	$4, %xmm7
	pblendw	$170, %xmm8, %xmm7
	movdqa	%xmm9, %xmm8
	psllw	$4, %xmm8
	pblendw	$170, %xmm9, %xmm8
	movdqa	%xmm8, %xmm9
	psrlw	$4, %xmm9
	movdqa	%xmm7, %xmm10
	psrlw	$4, %xmm10
	movdqa	%xmm6, %xmm11
	psrlw	$4, %xmm11
	movdqa	%xmm5, %xmm12
	psrlw	$4, %xmm12
	movdqa	.LCPIa52ca417_11(%rip), %xmm13
	pand	%xmm13, %xmm12
	pand	%xmm13, %xmm11
	pand	%xmm13, %xmm10
	pand	%xmm13, %xmm9
	psrlw	$2, %xmm8
	psrlw	$2, %xmm7
	psrlw	$2, %xmm6
	psrlw	$2, %xmm5
	movdqa	.LCPIa52ca417_12(%rip), %xmm13
	pand	%xmm13, %xmm5
	por	%xmm12, %xmm5
	pand	%xmm13, %xmm6
	por	%xmm11, %xmm6
	pand	%xmm13, %xmm7
	por	%xmm10, %xmm7
	pand	%xmm13, %xmm8
	por	%xmm9, %xmm8
	pcmpeqb	%xmm4, %xmm5
	psubb	%xmm5, %xmm3
	pcmpeqb	%xmm4, %xmm6
	psubb	%xmm6, %xmm2
	pcmpeqb	%xmm4, %xmm7
	psubb	%xmm7, %xmm1
	pcmpeqb	%xmm4, %xmm8
	psubb	%xmm8, %xmm0
	addq	$48, %rax
	cmpq	$6176, %rax
	jne	.LBBa52ca417_188
	movdqa	.LCPIa52ca417_1(%rip), %xmm4
	pmaddubsw	%xmm4, %xmm3
	movdqa	.LCPIa52ca417_14(%rip), %xmm5
	pmaddwd	%xmm5, %xmm3
	pmaddubsw	%xmm4, %xmm2
	pmaddwd	%xmm5, %xmm2
	pmaddubsw	%xmm4, %xmm1
	pmaddwd	%xmm5, %xmm1
	paddd	%xmm3, %xmm1
	pmaddubsw	%xmm4, %xmm0
	pmaddwd	%xmm5, %xmm0
	paddd	%xmm2, %xmm0
	paddd	%xmm1, %xmm0
	pshufd	$238, %xmm0, %xmm1
	paddd	%xmm0, %xmm1
	pshufd	$85, %xmm1, %xmm0
	paddd	%xmm1, %xmm0
	movd	%xmm0, %eax
	addq	%rax, %rbx
	incq	%r8
	addq	$6144, %rcx
	cmpq	%rdx, %r8
	jne	.LBBa52ca417_187
.LBBa52ca417_190:
	movl	%esi, %r8d
	movl	$2863311531, %r10d
	imulq	%r10, %r8
	shrq	$37, %r8
	movl	%r8d, %edx
	shll	$4, %edx
	leal	(%rdx,%rdx,2), %eax
	movl	%esi, %r12d
	subl	%eax, %r12d
	pxor	%xmm1, %xmm1
	cmpq	$48, %rsi
	jae	.LBBa52ca417_196
	pxor	%xmm3, %xmm3
	pxor	%xmm10, %xmm10
	pxor	%xmm2, %xmm2
	pxor	%xmm0, %xmm0
	jmp	.LBBa52ca417_198
.LBBa52ca417_192:
	movdqu	248(%rsp), %xmm0
	movdqa	%xmm0, 336(%rsp)
	movq	264(%rsp), %rax
	movq	%rax, 352(%rsp)
	movq	168(%rsp), %r15
	movq	176(%rsp), %r14
	movq	344(%rsp), %r13
	movq	%rax, (%rsp)
	subq	%r13, %rax
	cmpq	%rax, %r14
	ja	.LBBa52ca417_359
.LBBa52ca417_193:
	movq	336(%rsp), %rax
	movq	%rax, %rbp
	leaq	(%rax,%r13), %rdi
	movq	%rdi, %rax
	subq	%r15, %rax
	cmpq	%r14, %rax
	jae	.LBBa52ca417_240
	movq	%r13, %r8
	cmpq	$4, %r14
	jb	.LBBa52ca417_195
	cmpq	$32, %rax
	jae	.LBBa52ca417_290
.LBBa52ca417_195:
	xorl	%eax, %eax
.LBBa52ca417_329:
	movq	%r14, %rdx
	movq	%rax, %rcx
	andq	$3, %rdx
	je	.LBBa52ca417_332
	movq	%rax, %rcx
.LBBa52ca417_331:
	movzbl	(%r15,%rcx), %esi
	movb	%sil, (%rdi,%rcx)
	incq	%rcx
	decq	%rdx
	jne	.LBBa52ca417_331
.LBBa52ca417_332:
	subq	%r14, %rax
	cmpq	$-4, %rax
	movq	%r8, %r13
	ja	.LBBa52ca417_335
	leaq	3(,%rbp), %rax
	addq	%r13, %rax
.LBBa52ca417_334:
	movzbl	(%r15,%rcx), %edx
	movb	%dl, -3(%rax,%rcx)
	movzbl	1(%r15,%rcx), %edx
	movb	%dl, -2(%rax,%rcx)
	movzbl	2(%r15,%rcx), %edx
	movb	%dl, -1(%rax,%rcx)
	movzbl	3(%r15,%rcx), %edx
	movb	%dl, (%rax,%rcx)
	addq	$4, %rcx
	cmpq	%rcx, %r14
	jne	.LBBa52ca417_334
	jmp	.LBBa52ca417_335
.LBBa52ca417_196:
	leaq	(%r11,%r15), %rsi
	addq	$32, %rsi
	pxor	%xmm4, %xmm4
	pxor	%xmm3, %xmm3
	pxor	%xmm10, %xmm10
	pxor	%xmm2, %xmm2
	pxor	%xmm0, %xmm0
.LBBa52ca417_197:
	movdqa	.LCPIa52ca417_9(%rip), %xmm5
	movdqu	-32(%rsi), %xmm6
	movdqu	-20(%rsi), %xmm7
	movdqu	-8(%rsi), %xmm8
	movdqu	(%rsi), %xmm9
	pshufb	%xmm5, %xmm6
	pshufb	%xmm5, %xmm7
	pshufb	%xmm5, %xmm8
	pshufb	.LCPIa52ca417_10(%rip), %xmm9
	movdqa	%xmm6, %xmm5
	psllw	$4, %xmm5
	pblendw	$170, %xmm6, %xmm5
	movdqa	%xmm7, %xmm6
	psllw	$4, %xmm6
	pblendw	$170, %xmm7, %xmm6
	movdqa	%xmm8, %xmm7
	psllw	$4, %xmm7
	pblendw	$170, %xmm8, %xmm7
	movdqa	%xmm9, %xmm8
	psllw	$4, %xmm8
	pblendw	$170, %xmm9, %xmm8
	movdqa	%xmm7, %xmm9
	psrlw	$4, %xmm9
	movdqa	%xmm6, %xmm12
	psrlw	$4, %xmm12
	movdqa	%xmm5, %xmm13
	psrlw	$4, %xmm13
	movdqa	%xmm8, %xmm11
	psrlw	$4, %xmm11
	movdqa	.LCPIa52ca417_11(%rip), %xmm14
	pand	%xmm14, %xmm13
	pand	%xmm14, %xmm12
	pand	%xmm14, %xmm9
	pand	%xmm14, %xmm11
	psrlw	$2, %xmm7
	psrlw	$2, %xmm6
	psrlw	$2, %xmm5
	psrlw	$2, %xmm8
	movdqa	.LCPIa52ca417_12(%rip), %xmm14
	pand	%xmm14, %xmm5
	por	%xmm13, %xmm5
	pand	%xmm14, %xmm6
	por	%xmm12, %xmm6
	pand	%xmm14, %xmm7
	por	%xmm9, %xmm7
	pand	%xmm14, %xmm8
	por	%xmm11, %xmm8
	pcmpeqb	%xmm4, %xmm5
	psubb	%xmm5, %xmm3
	pcmpeqb	%xmm4, %xmm6
	psubb	%xmm6, %xmm10
	pcmpeqb	%xmm4, %xmm7
	psubb	%xmm7, %xmm2
	pcmpeqb	%xmm4, %xmm8
	psubb	%xmm8, %xmm0
	addq	$48, %rsi
	decq	%r8
	jne	.LBBa52ca417_197
.LBBa52ca417_198:
	leaq	(%rdx,%rdx,2), %rax
	movdqa	%xmm1, 688(%rsp)
	movdqa	%xmm1, 672(%rsp)
	movdqa	%xmm1, 656(%rsp)
	movdqa	%xmm1, 640(%rsp)
	cmpq	$48, %r12
	jae	.LBBa52ca417_219
	movq	%rax, 96(%rsp)
	movq	%r11, 112(%rsp)
	movq	%r14, 8(%rsp)
	movq	%r9, (%rsp)
	imulq	%r12, %r10
	shrq	$37, %r10
	movl	%r10d, %ecx
	shll	$4, %ecx
	leal	(%rcx,%rcx,2), %edx
	movl	%r12d, %eax
	subl	%edx, %eax
	cmpq	$3, %rax
	jb	.LBBa52ca417_205
	movdqa	%xmm2, 400(%rsp)
	movdqa	%xmm3, 368(%rsp)
	movq	%r12, 72(%rsp)
	movdqa	%xmm10, 320(%rsp)
	movq	%r15, 128(%rsp)
	leaq	(%rcx,%rcx,2), %rcx
	movq	%rcx, 360(%rsp)
	shlq	$6, %r10
	leaq	(%rsp,%r10), %rdx
	addq	$640, %rdx
	movl	$2863311531, %ecx
	imulq	%rax, %rcx
	shrq	$33, %rcx
	movq	%rcx, 80(%rsp)
	cmpl	$24, %eax
	jae	.LBBa52ca417_260
	xorl	%edi, %edi
.LBBa52ca417_202:
	leaq	160(%rsp), %r13
	movq	128(%rsp), %r15
	movdqa	320(%rsp), %xmm10
	movq	72(%rsp), %r12
	movq	80(%rsp), %r11
	movdqa	368(%rsp), %xmm3
	movdqa	400(%rsp), %xmm2
.LBBa52ca417_203:
	movq	112(%rsp), %rcx
	addq	360(%rsp), %rcx
	leaq	(%rdi,%rdi,2), %rax
	movq	96(%rsp), %rsi
	addq	%rax, %rsi
	addq	%rcx, %rsi
	leaq	(%r15,%rsi), %rax
	addq	$2, %rax
.LBBa52ca417_204:
	movzbl	-2(%rax), %ecx
	movzbl	-1(%rax), %esi
	movzbl	(%rax), %r8d
	shll	$8, %esi
	movl	%r8d, %r9d
	shll	$16, %r9d
	orl	%esi, %r9d
	orl	%ecx, %esi
	shrl	$6, %esi
	shrl	$12, %r9d
	shrb	$2, %r8b
	andb	$63, %r9b
	movd	%ecx, %xmm1
	pinsrb	$1, %esi, %xmm1
	pand	.LCPIa52ca417_19(%rip), %xmm1
	movd	(%rdx,%rdi,4), %xmm4
	movzbl	%r9b, %ecx
	pinsrb	$2, %ecx, %xmm1
	movzbl	%r8b, %ecx
	pinsrb	$3, %ecx, %xmm1
	pmaxub	%xmm4, %xmm1
	movd	%xmm1, (%rdx,%rdi,4)
	incq	%rdi
	addq	$3, %rax
	cmpq	%rdi, %r11
	jne	.LBBa52ca417_204
.LBBa52ca417_205:
	movaps	640(%rsp), %xmm1
	movaps	656(%rsp), %xmm4
	movdqa	672(%rsp), %xmm5
	movdqa	688(%rsp), %xmm6
	movdqa	%xmm6, 464(%rsp)
	movdqa	%xmm5, 448(%rsp)
	movaps	%xmm4, 432(%rsp)
	movaps	%xmm1, 416(%rsp)
	imull	$171, %r12d, %eax
	shrl	$8, %eax
	addb	%al, %al
	andb	$-4, %al
	movzbl	%al, %esi
	movdqa	.LCPIa52ca417_1(%rip), %xmm1
	pmaddubsw	%xmm1, %xmm3
	movdqa	.LCPIa52ca417_14(%rip), %xmm4
	pmaddwd	%xmm4, %xmm3
	pmaddubsw	%xmm1, %xmm10
	pmaddwd	%xmm4, %xmm10
	pmaddubsw	%xmm1, %xmm2
	pmaddwd	%xmm4, %xmm2
	paddd	%xmm3, %xmm2
	pmaddubsw	%xmm1, %xmm0
	pmaddwd	%xmm4, %xmm0
	paddd	%xmm10, %xmm0
	paddd	%xmm2, %xmm0
	pshufd	$238, %xmm0, %xmm1
	paddd	%xmm0, %xmm1
	pshufd	$85, %xmm1, %xmm0
	paddd	%xmm1, %xmm0
	movd	%xmm0, %ebp
	leaq	416(%rsp), %rdi
	callq	hll_kernels.kernels.zeros_in
	addl	%eax, %ebx
	addl	%ebp, %ebx
	movq	(%rsp), %r9
	movq	8(%rsp), %r14
.LBBa52ca417_206:
	pxor	%xmm0, %xmm0
	movdqa	%xmm0, 432(%rsp)
	movdqa	%xmm0, 416(%rsp)
	movdqu	40(%r13), %xmm0
	movdqu	56(%r13), %xmm1
	movdqa	%xmm0, 640(%rsp)
	movdqa	%xmm1, 656(%rsp)
	movl	%ebx, 672(%rsp)
	movl	$0, 676(%rsp)
	leaq	41(%r14), %rcx
	orl	$256, %r9d
	leaq	416(%rsp), %rdi
	leaq	640(%rsp), %rsi
	movl	%r9d, %edx
	callq	hll_registers.preamble.Preamble.start_image.f8e44fc08f8602d9
	cmpb	$0, 416(%rsp)
	je	.LBBa52ca417_208
	movb	$1, %r15b
	movzbl	417(%rsp), %r14d
	xorl	%r12d, %r12d
	movzbl	152(%rsp), %edx
	movq	168(%rsp), %rax
	movq	176(%rsp), %rdi
	movq	184(%rsp), %rcx
	movq	192(%rsp), %r9
	movq	200(%rsp), %r10
	leaq	.LJTIa52ca417_4(%rip), %rsi
	movslq	(%rsi,%rdx,4), %rdx
	addq	%rsi, %rdx
	xorl	%r13d, %r13d
	xorl	%ebp, %ebp
	jmpq	*%rdx
.LBBa52ca417_208:
	movdqu	424(%rsp), %xmm0
	movdqa	%xmm0, 240(%rsp)
	movq	440(%rsp), %rcx
	movq	%rcx, 256(%rsp)
	movq	248(%rsp), %rax
	movq	%rcx, %r12
	subq	%rax, %rcx
	cmpq	%rcx, %r14
	ja	.LBBa52ca417_406
.LBBa52ca417_209:
	leaq	(%rax,%r14), %r13
	movq	240(%rsp), %rcx
	movq	%rcx, %rbp
	leaq	(%rcx,%rax), %rdi
	movq	%rdi, %rcx
	movq	%r15, %rsi
	subq	%r15, %rcx
	cmpq	%r14, %rcx
	jae	.LBBa52ca417_251
	movq	%r14, %r10
	cmpq	$4, %r14
	jb	.LBBa52ca417_212
	cmpq	$32, %rcx
	jae	.LBBa52ca417_305
.LBBa52ca417_212:
	xorl	%ecx, %ecx
	movq	%rsi, %r9
	movq	%r10, %rsi
.LBBa52ca417_213:
	movq	%rcx, %rdx
	andq	$3, %rsi
	je	.LBBa52ca417_216
	movq	%rcx, %rdx
.LBBa52ca417_215:
	movzbl	(%r9,%rdx), %r8d
	movb	%r8b, (%rdi,%rdx)
	incq	%rdx
	decq	%rsi
	jne	.LBBa52ca417_215
.LBBa52ca417_216:
	subq	%r10, %rcx
	cmpq	$-4, %rcx
	ja	.LBBa52ca417_252
	addq	%rbp, %rax
	addq	$3, %rax
.LBBa52ca417_218:
	movzbl	(%r9,%rdx), %ecx
	movb	%cl, -3(%rax,%rdx)
	movzbl	1(%r9,%rdx), %ecx
	movb	%cl, -2(%rax,%rdx)
	movzbl	2(%r9,%rdx), %ecx
	movb	%cl, -1(%rax,%rdx)
	movzbl	3(%r9,%rdx), %ecx
	movb	%cl, (%rax,%rdx)
	addq	$4, %rdx
	cmpq	%rdx, %r10
	jne	.LBBa52ca417_218
	jmp	.LBBa52ca417_252
.LBBa52ca417_219:
	addq	%rax, %r11
	leaq	(%r15,%r11), %rax
	addq	$32, %rax
	leaq	640(%rsp), %rcx
	.p2align	4
.LBBa52ca417_220:
	movdqa	.LCPIa52ca417_9(%rip), %xmm0
	movdqu	-32(%rax), %xmm1
	movdqu	-20(%rax), %xmm2
	movdqu	-8(%rax), %xmm4
	movdqu	(%rax), %xmm5
	pshufb	%xmm0, %xmm1
	pshufb	%xmm0, %xmm2
	pshufb	%xmm0, %xmm4
	pshufb	.LCPIa52ca417_10(%rip), %xmm5
	movdqa	%xmm2, %xmm0
	psllw	$4, %xmm0
	pblendw	$170, %xmm2, %xmm0
	movdqa	%xmm1, %xmm3
	psllw	$4, %xmm3
	pblendw	$170, %xmm1, %xmm3
	movdqa	%xmm4, %xmm1
	psllw	$4, %xmm1
	pblendw	$170, %xmm4, %xmm1
	movdqa	%xmm5, %xmm2
	psllw	$4, %xmm2
	pblendw	$170, %xmm5, %xmm2
	movdqa	%xmm1, %xmm4
	psrlw	$4, %xmm4
	movdqa	%xmm3, %xmm6
	psrlw	$4, %xmm6
	movdqa	%xmm0, %xmm7
	psrlw	$4, %xmm7
	movdqa	%xmm2, %xmm5
	psrlw	$4, %xmm5
	movdqa	.LCPIa52ca417_11(%rip), %xmm8
	pand	%xmm8, %xmm7
	pand	%xmm8, %xmm6
	pand	%xmm8, %xmm4
	pand	%xmm8, %xmm5
	psrlw	$2, %xmm1
	psrlw	$2, %xmm3
	psrlw	$2, %xmm0
	psrlw	$2, %xmm2
	movdqa	.LCPIa52ca417_12(%rip), %xmm8
	pand	%xmm8, %xmm0
	por	%xmm7, %xmm0
	pand	%xmm8, %xmm3
	por	%xmm6, %xmm3
	pand	%xmm8, %xmm1
	por	%xmm4, %xmm1
	pand	%xmm8, %xmm2
	por	%xmm5, %xmm2
	movdqu	(%rcx), %xmm4
	pmaxub	%xmm3, %xmm4
	movdqu	16(%rcx), %xmm3
	pmaxub	%xmm0, %xmm3
	movdqu	32(%rcx), %xmm0
	pmaxub	%xmm1, %xmm0
	movdqu	48(%rcx), %xmm1
	pmaxub	%xmm2, %xmm1
	movdqu	%xmm0, 32(%rcx)
	movdqu	%xmm1, 48(%rcx)
	movdqu	%xmm4, (%rcx)
	movdqu	%xmm3, 16(%rcx)
	addq	$48, %rax
	addq	$64, %rcx
	jmp	.LBBa52ca417_220
.LBBa52ca417_221:
	movq	%r10, 80(%rsp)
	movq	%rdi, 40(%rsp)
	movq	%rsi, 8(%rsp)
	movl	32(%rsi), %eax
	xorl	%edx, %edx
	movb	$8, %bpl
	cmpq	%rax, %r14
	jb	.LBBa52ca417_225
	movq	8(%rsp), %rax
	cmpl	$0, 36(%rax)
	movl	$0, %r15d
	movl	$0, %ecx
	movl	$0, %r8d
	movl	$0, %r12d
	movl	$0, %eax
	movq	%rax, 16(%rsp)
	movl	$0, %eax
	movq	%rax, 48(%rsp)
	movl	$0, %r9d
	movl	$0, %r11d
	movl	$0, %r10d
	movq	40(%rsp), %rdi
	jne	.LBBa52ca417_43
	addq	$-40, %rbx
	cmpq	%r14, %rbx
	jae	.LBBa52ca417_285
.LBBa52ca417_224:
	xorl	%edx, %edx
	xorl	%ebp, %ebp
.LBBa52ca417_225:
	xorl	%r15d, %r15d
	xorl	%ecx, %ecx
	xorl	%r8d, %r8d
	xorl	%r12d, %r12d
	movq	$0, 16(%rsp)
	movq	$0, 48(%rsp)
	xorl	%r9d, %r9d
	xorl	%r11d, %r11d
	xorl	%r10d, %r10d
	movq	40(%rsp), %rdi
	jmp	.LBBa52ca417_43
.LBBa52ca417_231:
	xorl	%r13d, %r13d
.LBBa52ca417_232:
	movl	%r12d, %esi
	andl	$8191, %esi
	movq	%r12, %rdi
	andq	$-8192, %rdi
	addq	%r15, %rdi
	callq	hll_kernels.kernels.zeros_in
	addl	%eax, %r13d
	movq	(%rsp), %r9
.LBBa52ca417_233:
	pxor	%xmm0, %xmm0
	movdqa	%xmm0, 432(%rsp)
	movdqa	%xmm0, 416(%rsp)
	movdqu	40(%r14), %xmm0
	movdqu	56(%r14), %xmm1
	movdqa	%xmm0, 640(%rsp)
	movdqa	%xmm1, 656(%rsp)
	movl	%r13d, 672(%rsp)
	movl	$0, 676(%rsp)
	leaq	40(%r12), %rcx
	orl	$512, %r9d
	leaq	416(%rsp), %rdi
	leaq	640(%rsp), %rsi
	movl	%r9d, %edx
	callq	hll_registers.preamble.Preamble.start_image.f8e44fc08f8602d9
	cmpb	$0, 416(%rsp)
	je	.LBBa52ca417_235
	movb	$1, %r15b
	movzbl	417(%rsp), %r14d
	xorl	%r12d, %r12d
	movzbl	152(%rsp), %edx
	movq	168(%rsp), %rax
	movq	176(%rsp), %rdi
	movq	184(%rsp), %rcx
	movq	192(%rsp), %r9
	movq	200(%rsp), %r10
	leaq	.LJTIa52ca417_4(%rip), %rsi
	movslq	(%rsi,%rdx,4), %rdx
	addq	%rsi, %rdx
	xorl	%r13d, %r13d
	xorl	%ebp, %ebp
	jmpq	*%rdx
.LBBa52ca417_235:
	movdqu	424(%rsp), %xmm0
	movdqa	%xmm0, 240(%rsp)
	movq	440(%rsp), %rcx
	movq	%rcx, 256(%rsp)
	movq	248(%rsp), %rax
	movq	%rcx, (%rsp)
	subq	%rax, %rcx
	cmpq	%rcx, %r12
	ja	.LBBa52ca417_357
.LBBa52ca417_236:
	leaq	(%rax,%r12), %r13
	movq	240(%rsp), %rcx
	movq	%rcx, %rbp
	leaq	(%rcx,%rax), %rdi
	movq	%rdi, %rcx
	subq	%r15, %rcx
	cmpq	%r12, %rcx
	jae	.LBBa52ca417_239
	cmpq	$4, %r12
	jb	.LBBa52ca417_238
	cmpq	$32, %rcx
	jae	.LBBa52ca417_288
.LBBa52ca417_238:
	xorl	%ecx, %ecx
.LBBa52ca417_314:
	movq	%r12, %rsi
	movq	%rcx, %rdx
	andq	$3, %rsi
	je	.LBBa52ca417_317
	movq	%rcx, %rdx
.LBBa52ca417_316:
	movzbl	(%r15,%rdx), %r8d
	movb	%r8b, (%rdi,%rdx)
	incq	%rdx
	decq	%rsi
	jne	.LBBa52ca417_316
.LBBa52ca417_317:
	subq	%r12, %rcx
	cmpq	$-4, %rcx
	ja	.LBBa52ca417_320
	addq	%rbp, %rax
	addq	$3, %rax
.LBBa52ca417_319:
	movzbl	(%r15,%rdx), %ecx
	movb	%cl, -3(%rax,%rdx)
	movzbl	1(%r15,%rdx), %ecx
	movb	%cl, -2(%rax,%rdx)
	movzbl	2(%r15,%rdx), %ecx
	movb	%cl, -1(%rax,%rdx)
	movzbl	3(%r15,%rdx), %ecx
	movb	%cl, (%rax,%rdx)
	addq	$4, %rdx
	cmpq	%rdx, %r12
	jne	.LBBa52ca417_319
.LBBa52ca417_320:
	movl	$0, 48(%rsp)
	xorl	%r14d, %r14d
.LBBa52ca417_321:
	movzbl	152(%rsp), %edx
	movq	168(%rsp), %rax
	movq	176(%rsp), %rdi
	movq	184(%rsp), %rcx
	movq	192(%rsp), %r9
	movq	200(%rsp), %r10
	leaq	.LJTIa52ca417_4(%rip), %rsi
	movslq	(%rsi,%rdx,4), %rdx
	addq	%rsi, %rdx
	movq	(%rsp), %r12
	movl	48(%rsp), %r15d
	jmpq	*%rdx
.LBBa52ca417_239:
	movq	%r15, %rsi
	movq	%r12, %rdx
	callq	memmove@PLT
	movzbl	152(%rsp), %edx
	movq	168(%rsp), %rax
	movq	176(%rsp), %rdi
	movq	184(%rsp), %rcx
	movq	192(%rsp), %r9
	movq	200(%rsp), %r10
	leaq	.LJTIa52ca417_4(%rip), %rsi
	movslq	(%rsi,%rdx,4), %rdx
	addq	%rsi, %rdx
	xorl	%r15d, %r15d
	movq	(%rsp), %r12
	xorl	%r14d, %r14d
	jmpq	*%rdx
.LBBa52ca417_240:
	movq	%r15, %rsi
	movq	%r14, %rdx
	callq	memmove@PLT
.LBBa52ca417_335:
	addq	%r14, %r13
	cmpb	$1, 192(%rsp)
	jne	.LBBa52ca417_339
	movq	200(%rsp), %rsi
	pxor	%xmm0, %xmm0
	movdqa	%xmm0, 432(%rsp)
	movdqa	%xmm0, 416(%rsp)
	addq	$8, %rsi
	leaq	416(%rsp), %rdi
	callq	hll_coupons.container.Container.ascending.93a4c1920d65b3d5
	cmpb	$0, 416(%rsp)
	je	.LBBa52ca417_340
	movzbl	417(%rsp), %r14d
	cmpq	$0, (%rsp)
	je	.LBBa52ca417_430
	movq	%rbp, %rdi
	callq	rattle_dealloc@PLT
	movb	$1, %r15b
	xorl	%r12d, %r12d
	movzbl	152(%rsp), %edx
	movq	168(%rsp), %rax
	movq	176(%rsp), %rdi
	movq	184(%rsp), %rcx
	movq	192(%rsp), %r9
	movq	200(%rsp), %r10
	leaq	.LJTIa52ca417_4(%rip), %rsi
	movslq	(%rsi,%rdx,4), %rdx
	addq	%rsi, %rdx
	xorl	%r13d, %r13d
	xorl	%ebp, %ebp
	jmpq	*%rdx
.LBBa52ca417_339:
	xorl	%r14d, %r14d
	movzbl	152(%rsp), %edx
	movq	168(%rsp), %rax
	movq	176(%rsp), %rdi
	movq	184(%rsp), %rcx
	movq	192(%rsp), %r9
	movq	200(%rsp), %r10
	leaq	.LJTIa52ca417_4(%rip), %rsi
	movslq	(%rsi,%rdx,4), %rdx
	addq	%rsi, %rdx
	xorl	%r15d, %r15d
	movq	(%rsp), %r12
	jmpq	*%rdx
.LBBa52ca417_241:
	leaq	(%rsp,%rdi), %r8
	addq	$643, %r8
	leaq	(%rcx,%rax,4), %r9
	decq	%r9
	xorl	%edx, %edx
	cmpq	%r8, %r9
	jb	.LBBa52ca417_113
	leaq	(%rsp,%rdi), %r8
	addq	$642, %r8
	leaq	(%rcx,%rax,4), %r9
	addq	$-2, %r9
	cmpq	%r8, %r9
	jb	.LBBa52ca417_113
	leaq	(%rcx,%rax,4), %r8
	addq	$-4, %r8
	cmpq	%rcx, %r8
	jb	.LBBa52ca417_113
	addq	%rsp, %rdi
	addq	$641, %rdi
	leaq	(%rcx,%rax,4), %r8
	addq	$-3, %r8
	cmpq	%rdi, %r8
	jb	.LBBa52ca417_113
	leaq	-1(%rax), %rdi
	movabsq	$4611686018427387903, %r8
	cmpq	%r8, %rdi
	leaq	160(%rsp), %r13
	movq	16(%rsp), %rbp
	movq	80(%rsp), %r15
	movq	112(%rsp), %r12
	movq	(%rsp), %r9
	ja	.LBBa52ca417_114
	cmpl	$48, %esi
	jae	.LBBa52ca417_301
	xorl	%edx, %edx
	movq	(%rsp), %r9
.LBBa52ca417_248:
	movq	%rdx, %r8
	movabsq	$9223372036854775792, %rdx
	addl	$8, %edx
	andl	%eax, %edx
	movq	128(%rsp), %rsi
	movq	96(%rsp), %rdi
	addq	%rdi, %rsi
	leaq	(%r8,%r8,2), %rdi
	addq	%rsi, %rdi
	addq	%r9, %rdi
	addq	$23, %rdi
.LBBa52ca417_249:
	movzbl	-23(%rdi), %esi
	movd	%esi, %xmm3
	pinsrb	$1, -20(%rdi), %xmm3
	pinsrb	$2, -17(%rdi), %xmm3
	pinsrb	$3, -14(%rdi), %xmm3
	movzbl	-11(%rdi), %r9d
	movdqa	%xmm3, %xmm1
	pinsrb	$4, %r9d, %xmm1
	movzbl	-8(%rdi), %r10d
	pinsrb	$5, %r10d, %xmm1
	movzbl	-5(%rdi), %r11d
	pinsrb	$6, %r11d, %xmm1
	movzbl	-2(%rdi), %ebx
	pinsrb	$7, %ebx, %xmm1
	movzbl	-21(%rdi), %esi
	movd	%esi, %xmm2
	pinsrb	$1, -18(%rdi), %xmm2
	pinsrb	$2, -15(%rdi), %xmm2
	pinsrb	$3, -12(%rdi), %xmm2
	movzbl	-9(%rdi), %esi
	movdqa	%xmm2, %xmm0
	pinsrb	$4, %esi, %xmm0
	movzbl	-6(%rdi), %r12d
	pinsrb	$5, %r12d, %xmm0
	movzbl	-3(%rdi), %r15d
	pinsrb	$6, %r15d, %xmm0
	pmovzxbd	%xmm3, %xmm4
	movzbl	(%rdi), %r13d
	pinsrb	$7, %r13d, %xmm0
	pmovzxbd	%xmm2, %xmm2
	movd	%r9d, %xmm7
	pinsrb	$4, %r10d, %xmm7
	pinsrb	$8, %r11d, %xmm7
	pinsrb	$12, %ebx, %xmm7
	movzbl	-10(%rdi), %r9d
	movd	%r9d, %xmm6
	pinsrb	$4, -7(%rdi), %xmm6
	pinsrb	$8, -4(%rdi), %xmm6
	pinsrb	$12, -1(%rdi), %xmm6
	movzbl	-22(%rdi), %r9d
	movd	%r9d, %xmm3
	pinsrb	$4, -19(%rdi), %xmm3
	pinsrb	$8, -16(%rdi), %xmm3
	pinsrb	$12, -13(%rdi), %xmm3
	pslld	$8, %xmm3
	movd	%esi, %xmm5
	pinsrb	$4, %r12d, %xmm5
	pinsrb	$8, %r15d, %xmm5
	pinsrb	$12, %r13d, %xmm5
	pslld	$8, %xmm6
	pslld	$16, %xmm2
	pslld	$16, %xmm5
	por	%xmm6, %xmm5
	por	%xmm3, %xmm2
	por	%xmm7, %xmm6
	por	%xmm4, %xmm3
	movdqa	.LCPIa52ca417_17(%rip), %xmm4
	pand	%xmm4, %xmm1
	psrld	$6, %xmm3
	psrld	$6, %xmm6
	movdqa	.LCPIa52ca417_16(%rip), %xmm7
	pand	%xmm7, %xmm6
	pand	%xmm7, %xmm3
	packusdw	%xmm6, %xmm3
	pxor	%xmm6, %xmm6
	packuswb	%xmm6, %xmm3
	pand	%xmm4, %xmm3
	psrld	$12, %xmm2
	psrld	$12, %xmm5
	pand	%xmm7, %xmm5
	pand	%xmm7, %xmm2
	packusdw	%xmm5, %xmm2
	packuswb	%xmm6, %xmm2
	pand	%xmm4, %xmm2
	psrlw	$2, %xmm0
	pand	.LCPIa52ca417_6(%rip), %xmm0
	movzbl	(%rcx,%r8,4), %esi
	movd	%esi, %xmm4
	pinsrb	$1, 4(%rcx,%r8,4), %xmm4
	pinsrb	$2, 8(%rcx,%r8,4), %xmm4
	pinsrb	$3, 12(%rcx,%r8,4), %xmm4
	pinsrb	$4, 16(%rcx,%r8,4), %xmm4
	pinsrb	$5, 20(%rcx,%r8,4), %xmm4
	pinsrb	$6, 24(%rcx,%r8,4), %xmm4
	pinsrb	$7, 28(%rcx,%r8,4), %xmm4
	movzbl	1(%rcx,%r8,4), %esi
	movd	%esi, %xmm5
	pinsrb	$1, 5(%rcx,%r8,4), %xmm5
	pinsrb	$2, 9(%rcx,%r8,4), %xmm5
	pinsrb	$3, 13(%rcx,%r8,4), %xmm5
	pinsrb	$4, 17(%rcx,%r8,4), %xmm5
	pinsrb	$5, 21(%rcx,%r8,4), %xmm5
	pinsrb	$6, 25(%rcx,%r8,4), %xmm5
	pinsrb	$7, 29(%rcx,%r8,4), %xmm5
	pmaxub	%xmm1, %xmm4
	pmaxub	%xmm3, %xmm5
	movzbl	2(%rcx,%r8,4), %esi
	movd	%esi, %xmm1
	pinsrb	$1, 6(%rcx,%r8,4), %xmm1
	pinsrb	$2, 10(%rcx,%r8,4), %xmm1
	pinsrb	$3, 14(%rcx,%r8,4), %xmm1
	pinsrb	$4, 18(%rcx,%r8,4), %xmm1
	pinsrb	$5, 22(%rcx,%r8,4), %xmm1
	pinsrb	$6, 26(%rcx,%r8,4), %xmm1
	pinsrb	$7, 30(%rcx,%r8,4), %xmm1
	movzbl	3(%rcx,%r8,4), %esi
	movd	%esi, %xmm3
	pinsrb	$1, 7(%rcx,%r8,4), %xmm3
	pinsrb	$2, 11(%rcx,%r8,4), %xmm3
	pinsrb	$3, 15(%rcx,%r8,4), %xmm3
	pinsrb	$4, 19(%rcx,%r8,4), %xmm3
	pinsrb	$5, 23(%rcx,%r8,4), %xmm3
	pinsrb	$6, 27(%rcx,%r8,4), %xmm3
	pmaxub	%xmm2, %xmm1
	pinsrb	$7, 31(%rcx,%r8,4), %xmm3
	pmaxub	%xmm0, %xmm3
	movdqa	%xmm4, %xmm0
	punpcklqdq	%xmm5, %xmm0
	movdqa	%xmm1, %xmm2
	punpcklqdq	%xmm3, %xmm2
	movq	.LCPIa52ca417_22(%rip), %xmm6
	pshufb	%xmm6, %xmm0
	pshufb	%xmm6, %xmm2
	punpcklwd	%xmm2, %xmm0
	punpcklbw	%xmm5, %xmm4
	punpcklbw	%xmm3, %xmm1
	punpcklwd	%xmm1, %xmm4
	movdqu	%xmm4, (%rcx,%r8,4)
	movdqu	%xmm0, 16(%rcx,%r8,4)
	addq	$8, %r8
	addq	$24, %rdi
	cmpq	%r8, %rdx
	jne	.LBBa52ca417_249
	cmpl	%edx, %eax
	leaq	160(%rsp), %r13
	movq	16(%rsp), %rbp
	movq	80(%rsp), %r15
	movq	112(%rsp), %r12
	movq	(%rsp), %r9
	jne	.LBBa52ca417_114
	jmp	.LBBa52ca417_116
.LBBa52ca417_251:
	movq	%r14, %rdx
	callq	memmove@PLT
.LBBa52ca417_252:
	movq	%r13, 248(%rsp)
	movq	%r12, 256(%rsp)
	cmpq	%r13, %r12
	je	.LBBa52ca417_408
.LBBa52ca417_253:
	movb	$0, (%rbp,%r13)
	incq	%r13
	xorl	%r14d, %r14d
	movzbl	152(%rsp), %edx
	movq	168(%rsp), %rax
	movq	176(%rsp), %rdi
	movq	184(%rsp), %rcx
	movq	192(%rsp), %r9
	movq	200(%rsp), %r10
	leaq	.LJTIa52ca417_4(%rip), %rsi
	movslq	(%rsi,%rdx,4), %rdx
	addq	%rsi, %rdx
	xorl	%r15d, %r15d
	jmpq	*%rdx
.LBBa52ca417_254:
	movq	%rdi, %rbx
	movb	$9, %bpl
	testb	%r11b, %r11b
	jne	.LBBa52ca417_97
	jmp	.LBBa52ca417_99
.LBBa52ca417_340:
	movq	424(%rsp), %r14
	movq	432(%rsp), %r12
	movq	440(%rsp), %rax
	movq	%rax, 16(%rsp)
	movq	%rbp, 416(%rsp)
	movq	%r13, 424(%rsp)
	movq	(%rsp), %rax
	movq	%rax, 432(%rsp)
	movb	$1, %al
	movq	%rax, 48(%rsp)
	testq	%r12, %r12
	je	.LBBa52ca417_350
	xorl	%ebx, %ebx
	movq	(%rsp), %rcx
	jmp	.LBBa52ca417_344
.LBBa52ca417_342:
	movq	416(%rsp), %rbp
	movq	424(%rsp), %r13
	movq	432(%rsp), %rcx
.LBBa52ca417_343:
	movl	%r15d, (%rbp,%r13)
	addq	$4, %r13
	movq	%r13, 424(%rsp)
	movq	%rcx, 432(%rsp)
	incq	%rbx
	cmpq	%rbx, %r12
	je	.LBBa52ca417_349
.LBBa52ca417_344:
	movl	(%r14,%rbx,4), %r15d
	movq	%rcx, %rax
	subq	%r13, %rax
	cmpq	$3, %rax
	ja	.LBBa52ca417_343
	leaq	416(%rsp), %rdi
	movl	$4, %esi
	callq	std_alloc.vec.Vec.grow_amortized.d7da23479759cf44
	testb	%al, %al
	jne	.LBBa52ca417_342
	movb	$12, %bl
	cmpq	$0, 432(%rsp)
	je	.LBBa52ca417_348
	movq	416(%rsp), %rdi
	callq	rattle_dealloc@PLT
.LBBa52ca417_348:
	xorl	%ebp, %ebp
	xorl	%r13d, %r13d
	movq	$0, (%rsp)
	movq	$0, 48(%rsp)
	jmp	.LBBa52ca417_351
.LBBa52ca417_259:
	movq	$0, 80(%rsp)
	xorl	%esi, %esi
	movq	8(%rsp), %r12
	movq	%rbx, %r8
	jmp	.LBBa52ca417_273
.LBBa52ca417_260:
	leaq	(%rsp,%r10), %rcx
	addq	$643, %rcx
	movq	80(%rsp), %rsi
	leaq	(%rdx,%rsi,4), %rsi
	decq	%rsi
	xorl	%edi, %edi
	cmpq	%rcx, %rsi
	jb	.LBBa52ca417_202
	leaq	(%rsp,%r10), %rcx
	addq	$642, %rcx
	movq	80(%rsp), %rsi
	leaq	(%rdx,%rsi,4), %rsi
	addq	$-2, %rsi
	cmpq	%rcx, %rsi
	jb	.LBBa52ca417_202
	movq	80(%rsp), %rcx
	leaq	(%rdx,%rcx,4), %rcx
	addq	$-4, %rcx
	cmpq	%rdx, %rcx
	jb	.LBBa52ca417_202
	leaq	(%rsp,%r10), %rcx
	addq	$641, %rcx
	movq	80(%rsp), %rsi
	leaq	(%rdx,%rsi,4), %rsi
	addq	$-3, %rsi
	cmpq	%rcx, %rsi
	jb	.LBBa52ca417_202
	movq	80(%rsp), %r11
	leaq	-1(%r11), %rcx
	movabsq	$4611686018427387903, %rsi
	cmpq	%rsi, %rcx
	leaq	160(%rsp), %r13
	movq	128(%rsp), %r15
	movdqa	320(%rsp), %xmm10
	movq	72(%rsp), %r12
	movdqa	368(%rsp), %xmm3
	movdqa	400(%rsp), %xmm2
	ja	.LBBa52ca417_203
	cmpl	$48, %eax
	jae	.LBBa52ca417_410
	xorl	%edi, %edi
	movq	128(%rsp), %r15
	movq	80(%rsp), %r11
.LBBa52ca417_267:
	movq	%rdi, %rax
	movabsq	$9223372036854775792, %rdi
	addl	$8, %edi
	andl	%r11d, %edi
	leaq	(%r10,%rax,4), %rcx
	leaq	(%rsp,%rcx), %r10
	addq	$640, %r10
	movq	112(%rsp), %rcx
	movq	360(%rsp), %rsi
	addq	%rsi, %rcx
	leaq	(%rax,%rax,2), %rsi
	addq	96(%rsp), %rsi
	addq	%rcx, %rsi
	leaq	(%r15,%rsi), %r11
	addq	$23, %r11
	movq	%rdi, %r14
	subq	%rax, %r14
	xorl	%ebp, %ebp
.LBBa52ca417_268:
	movzbl	-23(%r11), %eax
	movd	%eax, %xmm6
	pinsrb	$1, -20(%r11), %xmm6
	pinsrb	$2, -17(%r11), %xmm6
	pinsrb	$3, -14(%r11), %xmm6
	movzbl	-11(%r11), %eax
	movdqa	%xmm6, %xmm4
	pinsrb	$4, %eax, %xmm4
	movzbl	-8(%r11), %r8d
	pinsrb	$5, %r8d, %xmm4
	movzbl	-5(%r11), %r9d
	pinsrb	$6, %r9d, %xmm4
	movzbl	-2(%r11), %ecx
	pinsrb	$7, %ecx, %xmm4
	movzbl	-21(%r11), %esi
	movd	%esi, %xmm5
	pinsrb	$1, -18(%r11), %xmm5
	pinsrb	$2, -15(%r11), %xmm5
	pinsrb	$3, -12(%r11), %xmm5
	movzbl	-9(%r11), %r13d
	movdqa	%xmm5, %xmm1
	pinsrb	$4, %r13d, %xmm1
	movzbl	-6(%r11), %r12d
	pinsrb	$5, %r12d, %xmm1
	movzbl	-3(%r11), %esi
	pinsrb	$6, %esi, %xmm1
	pmovzxbd	%xmm6, %xmm7
	movzbl	(%r11), %r15d
	pinsrb	$7, %r15d, %xmm1
	pmovzxbd	%xmm5, %xmm5
	movd	%eax, %xmm10
	pinsrb	$4, %r8d, %xmm10
	pinsrb	$8, %r9d, %xmm10
	pinsrb	$12, %ecx, %xmm10
	movzbl	-10(%r11), %eax
	movd	%eax, %xmm9
	pinsrb	$4, -7(%r11), %xmm9
	pinsrb	$8, -4(%r11), %xmm9
	pinsrb	$12, -1(%r11), %xmm9
	movzbl	-22(%r11), %eax
	movd	%eax, %xmm6
	pinsrb	$4, -19(%r11), %xmm6
	pinsrb	$8, -16(%r11), %xmm6
	pinsrb	$12, -13(%r11), %xmm6
	pslld	$8, %xmm6
	movd	%r13d, %xmm8
	pinsrb	$4, %r12d, %xmm8
	pinsrb	$8, %esi, %xmm8
	pinsrb	$12, %r15d, %xmm8
	pslld	$8, %xmm9
	pslld	$16, %xmm5
	pslld	$16, %xmm8
	por	%xmm9, %xmm8
	por	%xmm6, %xmm5
	por	%xmm10, %xmm9
	por	%xmm7, %xmm6
	movdqa	.LCPIa52ca417_17(%rip), %xmm7
	pand	%xmm7, %xmm4
	psrld	$6, %xmm6
	psrld	$6, %xmm9
	movdqa	.LCPIa52ca417_16(%rip), %xmm10
	pand	%xmm10, %xmm9
	pand	%xmm10, %xmm6
	packusdw	%xmm9, %xmm6
	pxor	%xmm9, %xmm9
	packuswb	%xmm9, %xmm6
	pand	%xmm7, %xmm6
	psrld	$12, %xmm5
	psrld	$12, %xmm8
	pand	%xmm10, %xmm8
	pand	%xmm10, %xmm5
	packusdw	%xmm8, %xmm5
	packuswb	%xmm9, %xmm5
	pand	%xmm7, %xmm5
	psrlw	$2, %xmm1
	pand	.LCPIa52ca417_6(%rip), %xmm1
	movzbl	(%r10,%rbp,4), %eax
	movd	%eax, %xmm7
	pinsrb	$1, 4(%r10,%rbp,4), %xmm7
	pinsrb	$2, 8(%r10,%rbp,4), %xmm7
	pinsrb	$3, 12(%r10,%rbp,4), %xmm7
	pinsrb	$4, 16(%r10,%rbp,4), %xmm7
	pinsrb	$5, 20(%r10,%rbp,4), %xmm7
	pinsrb	$6, 24(%r10,%rbp,4), %xmm7
	pinsrb	$7, 28(%r10,%rbp,4), %xmm7
	movzbl	1(%r10,%rbp,4), %eax
	movd	%eax, %xmm8
	pinsrb	$1, 5(%r10,%rbp,4), %xmm8
	pinsrb	$2, 9(%r10,%rbp,4), %xmm8
	pinsrb	$3, 13(%r10,%rbp,4), %xmm8
	pinsrb	$4, 17(%r10,%rbp,4), %xmm8
	pinsrb	$5, 21(%r10,%rbp,4), %xmm8
	pinsrb	$6, 25(%r10,%rbp,4), %xmm8
	pinsrb	$7, 29(%r10,%rbp,4), %xmm8
	pmaxub	%xmm4, %xmm7
	pmaxub	%xmm6, %xmm8
	movzbl	2(%r10,%rbp,4), %eax
	movd	%eax, %xmm4
	pinsrb	$1, 6(%r10,%rbp,4), %xmm4
	pinsrb	$2, 10(%r10,%rbp,4), %xmm4
	pinsrb	$3, 14(%r10,%rbp,4), %xmm4
	pinsrb	$4, 18(%r10,%rbp,4), %xmm4
	pinsrb	$5, 22(%r10,%rbp,4), %xmm4
	pinsrb	$6, 26(%r10,%rbp,4), %xmm4
	pinsrb	$7, 30(%r10,%rbp,4), %xmm4
	movzbl	3(%r10,%rbp,4), %eax
	movd	%eax, %xmm6
	pinsrb	$1, 7(%r10,%rbp,4), %xmm6
	pinsrb	$2, 11(%r10,%rbp,4), %xmm6
	pinsrb	$3, 15(%r10,%rbp,4), %xmm6
	pinsrb	$4, 19(%r10,%rbp,4), %xmm6
	pinsrb	$5, 23(%r10,%rbp,4), %xmm6
	pinsrb	$6, 27(%r10,%rbp,4), %xmm6
	pmaxub	%xmm5, %xmm4
	pinsrb	$7, 31(%r10,%rbp,4), %xmm6
	pmaxub	%xmm1, %xmm6
	movdqa	%xmm7, %xmm1
	punpcklqdq	%xmm8, %xmm1
	movdqa	%xmm4, %xmm5
	punpcklqdq	%xmm6, %xmm5
	movq	.LCPIa52ca417_22(%rip), %xmm9
	pshufb	%xmm9, %xmm1
	pshufb	%xmm9, %xmm5
	punpcklwd	%xmm5, %xmm1
	punpcklbw	%xmm8, %xmm7
	punpcklbw	%xmm6, %xmm4
	punpcklwd	%xmm4, %xmm7
	movdqu	%xmm7, (%r10,%rbp,4)
	movdqu	%xmm1, 16(%r10,%rbp,4)
	addq	$8, %rbp
	addq	$24, %r11
	cmpq	%rbp, %r14
	jne	.LBBa52ca417_268
	movq	80(%rsp), %r11
	cmpl	%edi, %r11d
	leaq	160(%rsp), %r13
	movq	128(%rsp), %r15
	movdqa	320(%rsp), %xmm10
	movq	72(%rsp), %r12
	movdqa	368(%rsp), %xmm3
	movdqa	400(%rsp), %xmm2
	jne	.LBBa52ca417_203
	jmp	.LBBa52ca417_205
.LBBa52ca417_270:
	testl	%r14d, %r14d
	jne	.LBBa52ca417_284
	movq	112(%rsp), %rdi
	movl	%r9d, (%rdi,%rcx,4)
	incq	80(%rsp)
.LBBa52ca417_272:
	addq	$4, %r12
	incq	%rsi
	cmpq	16(%rsp), %rsi
	je	.LBBa52ca417_294
.LBBa52ca417_273:
	subq	$4, %r8
	jb	.LBBa52ca417_479
	movl	(%r12), %r9d
	testq	%r9, %r9
	je	.LBBa52ca417_272
	movb	$9, %bpl
	cmpl	$67108864, %r9d
	jb	.LBBa52ca417_284
	movl	%r9d, %r10d
	andl	$67108863, %r10d
	movq	48(%rsp), %rcx
	shrl	%cl, %r10d
	orl	$1, %r10d
	movq	%rdx, %r11
	movq	%r9, %rcx
	movq	112(%rsp), %rdi
.LBBa52ca417_277:
	andq	%rax, %rcx
	movl	(%rdi,%rcx,4), %r14d
	testl	%r14d, %r14d
	je	.LBBa52ca417_270
	cmpl	%r9d, %r14d
	je	.LBBa52ca417_270
	addq	%r10, %rcx
	decq	%r11
	jne	.LBBa52ca417_277
.LBBa52ca417_280:
	movq	80(%rsp), %rax
	movq	%rax, 648(%rsp)
	movzbl	%r15b, %r8d
	leaq	640(%rsp), %rdi
	movq	8(%rsp), %rsi
	movq	%rbx, %rdx
	movq	16(%rsp), %rcx
	callq	hll_coupons.hash_set.read_by_order.5da326502419fe7c
	testb	%al, %al
	je	.LBBa52ca417_292
	movl	%edx, %ebp
	cmpb	$0, 656(%rsp)
	je	.LBBa52ca417_300
	cmpq	$0, 680(%rsp)
	je	.LBBa52ca417_300
	movq	664(%rsp), %rax
	movq	%rax, 112(%rsp)
	jmp	.LBBa52ca417_284
.LBBa52ca417_285:
	movq	8(%rsp), %rax
	leaq	40(%rax), %rbx
	movq	%r14, %rcx
	shrq	$6, %rcx
	je	.LBBa52ca417_361
	cmpq	$1, %rcx
	jne	.LBBa52ca417_414
	pxor	%xmm0, %xmm0
	xorl	%eax, %eax
	pxor	%xmm2, %xmm2
	pxor	%xmm1, %xmm1
	pxor	%xmm3, %xmm3
	jmp	.LBBa52ca417_417
.LBBa52ca417_288:
	cmpq	$32, %r12
	jae	.LBBa52ca417_307
	xorl	%ecx, %ecx
	jmp	.LBBa52ca417_311
.LBBa52ca417_290:
	cmpq	$32, %r14
	jae	.LBBa52ca417_322
	xorl	%eax, %eax
	jmp	.LBBa52ca417_326
.LBBa52ca417_349:
	movq	%rcx, (%rsp)
	movq	416(%rsp), %rbp
.LBBa52ca417_350:
	xorl	%ebx, %ebx
.LBBa52ca417_351:
	cmpq	$0, 16(%rsp)
	je	.LBBa52ca417_353
	movq	%r14, %rdi
	callq	rattle_dealloc@PLT
.LBBa52ca417_353:
	cmpb	$0, 48(%rsp)
	je	.LBBa52ca417_355
	xorl	%r15d, %r15d
	xorl	%ebx, %ebx
	jmp	.LBBa52ca417_356
.LBBa52ca417_292:
	movq	648(%rsp), %rax
.LBBa52ca417_293:
	movq	%rax, 80(%rsp)
.LBBa52ca417_294:
	movq	80(%rsp), %rax
	cmpq	(%rsp), %rax
	jne	.LBBa52ca417_296
	movq	640(%rsp), %rdx
	movzbl	656(%rsp), %eax
	movq	%rax, 96(%rsp)
	movl	660(%rsp), %ebx
	movq	664(%rsp), %rax
	movq	%rax, 128(%rsp)
	movq	672(%rsp), %r12
	movq	680(%rsp), %rax
	movq	%rax, 48(%rsp)
	movl	688(%rsp), %ebp
	movl	%edx, %eax
	shrl	$8, %eax
	movl	%eax, 112(%rsp)
	movq	%rdx, %rcx
	shrq	$32, %rcx
	movl	$1, %esi
	movq	%rsi, 8(%rsp)
	movq	$0, 80(%rsp)
	xorl	%r9d, %r9d
	xorl	%r10d, %r10d
	xorl	%r8d, %r8d
	xorl	%esi, %esi
	movl	%edx, %r15d
	movq	40(%rsp), %rdi
	movq	320(%rsp), %r11
	jmp	.LBBa52ca417_45
.LBBa52ca417_296:
	cmpb	$0, 656(%rsp)
	movb	$8, %bpl
	je	.LBBa52ca417_300
	cmpq	$0, 680(%rsp)
	je	.LBBa52ca417_300
	movq	664(%rsp), %rdi
	jmp	.LBBa52ca417_299
.LBBa52ca417_301:
	movl	%eax, %edx
	movabsq	$9223372036854775792, %rsi
	andl	%esi, %edx
	movq	128(%rsp), %rsi
	movq	96(%rsp), %rdi
	addq	%rdi, %rsi
	movq	(%rsp), %rdi
	leaq	(%rdi,%rsi), %r8
	addq	$47, %r8
	xorl	%r9d, %r9d
.LBBa52ca417_302:
	movzbl	-47(%r8), %esi
	movd	%esi, %xmm3
	movzbl	-35(%r8), %ebx
	movzbl	-32(%r8), %edi
	pinsrb	$1, -44(%r8), %xmm3
	movzbl	-45(%r8), %esi
	movd	%esi, %xmm2
	pinsrb	$2, -41(%r8), %xmm3
	pinsrb	$1, -42(%r8), %xmm2
	pinsrb	$3, -38(%r8), %xmm3
	movzbl	-29(%r8), %esi
	pinsrb	$2, -39(%r8), %xmm2
	movdqa	%xmm3, %xmm0
	pinsrb	$3, -36(%r8), %xmm2
	pinsrb	$4, %ebx, %xmm0
	movzbl	-33(%r8), %r10d
	movdqa	%xmm2, %xmm1
	pinsrb	$4, %r10d, %xmm1
	movzbl	-26(%r8), %r15d
	movzbl	-30(%r8), %r11d
	pinsrb	$5, %edi, %xmm0
	movd	%ebx, %xmm4
	movzbl	-27(%r8), %ebx
	pinsrb	$5, %r11d, %xmm1
	pinsrb	$4, %edi, %xmm4
	pinsrb	$6, %esi, %xmm0
	pinsrb	$8, %esi, %xmm4
	pinsrb	$6, %ebx, %xmm1
	movzbl	-23(%r8), %esi
	movzbl	-24(%r8), %edi
	pinsrb	$7, %r15d, %xmm0
	pinsrb	$12, %r15d, %xmm4
	pinsrb	$7, %edi, %xmm1
	movzbl	-20(%r8), %r15d
	movd	%esi, %xmm10
	pinsrb	$8, %esi, %xmm0
	pinsrb	$4, %r15d, %xmm10
	pinsrb	$9, %r15d, %xmm0
	movzbl	-17(%r8), %esi
	movzbl	-21(%r8), %r15d
	pinsrb	$8, %r15d, %xmm1
	movd	%r15d, %xmm6
	movzbl	-18(%r8), %r15d
	pinsrb	$9, %r15d, %xmm1
	pinsrb	$8, %esi, %xmm10
	pinsrb	$10, %esi, %xmm0
	movzbl	-14(%r8), %esi
	pinsrb	$4, %r15d, %xmm6
	movzbl	-10(%r8), %r15d
	movd	%r15d, %xmm8
	movzbl	-15(%r8), %r15d
	pinsrb	$10, %r15d, %xmm1
	pinsrb	$12, %esi, %xmm10
	pinsrb	$11, %esi, %xmm0
	movzbl	-11(%r8), %esi
	movd	%esi, %xmm15
	pinsrb	$12, %esi, %xmm0
	movzbl	-34(%r8), %esi
	pinsrb	$8, %r15d, %xmm6
	movzbl	-22(%r8), %r15d
	movd	%r15d, %xmm7
	movzbl	-12(%r8), %r15d
	pinsrb	$11, %r15d, %xmm1
	movd	%esi, %xmm9
	movzbl	-9(%r8), %esi
	pinsrb	$12, %esi, %xmm1
	movd	%esi, %xmm12
	pinsrb	$12, %r15d, %xmm6
	movzbl	-8(%r8), %esi
	pinsrb	$4, %esi, %xmm15
	pinsrb	$13, %esi, %xmm0
	movd	%r10d, %xmm11
	pinsrb	$4, %r11d, %xmm11
	movzbl	-6(%r8), %esi
	pinsrb	$4, %esi, %xmm12
	pinsrb	$13, %esi, %xmm1
	movzbl	-5(%r8), %esi
	pinsrb	$8, %ebx, %xmm11
	movzbl	-2(%r8), %r10d
	pinsrb	$8, %esi, %xmm15
	pinsrb	$14, %esi, %xmm0
	movzbl	-46(%r8), %esi
	pinsrb	$12, %edi, %xmm11
	movzbl	-3(%r8), %r11d
	movd	%esi, %xmm5
	movzbl	(%rcx,%r9,4), %esi
	movd	%esi, %xmm13
	movzbl	1(%rcx,%r9,4), %esi
	movd	%esi, %xmm14
	movzbl	(%r8), %esi
	pinsrb	$4, -7(%r8), %xmm8
	pinsrb	$8, -4(%r8), %xmm8
	pinsrb	$12, -1(%r8), %xmm8
	pinsrb	$8, %r11d, %xmm12
	pinsrb	$12, %r10d, %xmm15
	pinsrb	$12, %esi, %xmm12
	pslld	$16, %xmm12
	pslld	$8, %xmm8
	por	%xmm8, %xmm12
	por	%xmm15, %xmm8
	pinsrb	$14, %r11d, %xmm1
	movzbl	3(%rcx,%r9,4), %edi
	movd	%edi, %xmm15
	pinsrb	$15, %r10d, %xmm0
	pinsrb	$4, -19(%r8), %xmm7
	pinsrb	$8, -16(%r8), %xmm7
	pinsrb	$12, -13(%r8), %xmm7
	pslld	$16, %xmm6
	pslld	$8, %xmm7
	por	%xmm7, %xmm6
	por	%xmm10, %xmm7
	pinsrb	$15, %esi, %xmm1
	movzbl	2(%rcx,%r9,4), %esi
	movd	%esi, %xmm10
	pinsrb	$4, -31(%r8), %xmm9
	pinsrb	$4, -43(%r8), %xmm5
	pinsrb	$8, -28(%r8), %xmm9
	pinsrb	$8, -40(%r8), %xmm5
	pinsrb	$12, -25(%r8), %xmm9
	pinsrb	$1, 4(%rcx,%r9,4), %xmm13
	pinsrb	$12, -37(%r8), %xmm5
	pmovzxbd	%xmm3, %xmm3
	pinsrb	$2, 8(%rcx,%r9,4), %xmm13
	pmovzxbd	%xmm2, %xmm2
	pslld	$16, %xmm11
	pinsrb	$3, 12(%rcx,%r9,4), %xmm13
	pslld	$8, %xmm9
	por	%xmm9, %xmm11
	pinsrb	$4, 16(%rcx,%r9,4), %xmm13
	por	%xmm4, %xmm9
	pslld	$8, %xmm5
	pinsrb	$5, 20(%rcx,%r9,4), %xmm13
	pslld	$16, %xmm2
	por	%xmm5, %xmm2
	pinsrb	$6, 24(%rcx,%r9,4), %xmm13
	por	%xmm3, %xmm5
	psrld	$6, %xmm9
	pinsrb	$7, 28(%rcx,%r9,4), %xmm13
	psrld	$6, %xmm7
	psrld	$6, %xmm8
	pinsrb	$1, 5(%rcx,%r9,4), %xmm14
	psrld	$6, %xmm5
	movdqa	.LCPIa52ca417_16(%rip), %xmm3
	pinsrb	$2, 9(%rcx,%r9,4), %xmm14
	pand	%xmm3, %xmm8
	psrld	$12, %xmm11
	pinsrb	$3, 13(%rcx,%r9,4), %xmm14
	pand	%xmm3, %xmm7
	psrld	$12, %xmm6
	pinsrb	$4, 17(%rcx,%r9,4), %xmm14
	pand	%xmm3, %xmm9
	psrld	$12, %xmm12
	pinsrb	$5, 21(%rcx,%r9,4), %xmm14
	psrld	$12, %xmm2
	pinsrb	$6, 25(%rcx,%r9,4), %xmm14
	pinsrb	$8, 32(%rcx,%r9,4), %xmm13
	pand	%xmm3, %xmm12
	pinsrb	$7, 29(%rcx,%r9,4), %xmm14
	packusdw	%xmm8, %xmm7
	pand	%xmm3, %xmm6
	pinsrb	$8, 33(%rcx,%r9,4), %xmm14
	pand	%xmm3, %xmm5
	pand	%xmm3, %xmm11
	pinsrb	$1, 7(%rcx,%r9,4), %xmm15
	packusdw	%xmm12, %xmm6
	pand	%xmm3, %xmm2
	pinsrb	$2, 11(%rcx,%r9,4), %xmm15
	packusdw	%xmm9, %xmm5
	pinsrb	$3, 15(%rcx,%r9,4), %xmm15
	pinsrb	$9, 36(%rcx,%r9,4), %xmm13
	pinsrb	$4, 19(%rcx,%r9,4), %xmm15
	pinsrb	$9, 37(%rcx,%r9,4), %xmm14
	packusdw	%xmm11, %xmm2
	pinsrb	$5, 23(%rcx,%r9,4), %xmm15
	packuswb	%xmm7, %xmm5
	movdqa	.LCPIa52ca417_6(%rip), %xmm3
	pinsrb	$6, 27(%rcx,%r9,4), %xmm15
	packuswb	%xmm6, %xmm2
	pinsrb	$7, 31(%rcx,%r9,4), %xmm15
	pinsrb	$10, 40(%rcx,%r9,4), %xmm13
	pinsrb	$8, 35(%rcx,%r9,4), %xmm15
	pinsrb	$10, 41(%rcx,%r9,4), %xmm14
	pinsrb	$9, 39(%rcx,%r9,4), %xmm15
	pinsrb	$11, 44(%rcx,%r9,4), %xmm13
	pinsrb	$10, 43(%rcx,%r9,4), %xmm15
	pinsrb	$11, 45(%rcx,%r9,4), %xmm14
	pinsrb	$11, 47(%rcx,%r9,4), %xmm15
	pinsrb	$12, 48(%rcx,%r9,4), %xmm13
	pinsrb	$1, 6(%rcx,%r9,4), %xmm10
	pinsrb	$12, 49(%rcx,%r9,4), %xmm14
	pinsrb	$2, 10(%rcx,%r9,4), %xmm10
	pinsrb	$12, 51(%rcx,%r9,4), %xmm15
	pinsrb	$3, 14(%rcx,%r9,4), %xmm10
	pinsrb	$13, 52(%rcx,%r9,4), %xmm13
	pinsrb	$4, 18(%rcx,%r9,4), %xmm10
	pinsrb	$13, 53(%rcx,%r9,4), %xmm14
	pinsrb	$5, 22(%rcx,%r9,4), %xmm10
	pinsrb	$13, 55(%rcx,%r9,4), %xmm15
	pinsrb	$6, 26(%rcx,%r9,4), %xmm10
	pinsrb	$14, 56(%rcx,%r9,4), %xmm13
	pinsrb	$7, 30(%rcx,%r9,4), %xmm10
	pinsrb	$14, 57(%rcx,%r9,4), %xmm14
	pinsrb	$8, 34(%rcx,%r9,4), %xmm10
	pinsrb	$14, 59(%rcx,%r9,4), %xmm15
	pinsrb	$9, 38(%rcx,%r9,4), %xmm10
	pinsrb	$15, 60(%rcx,%r9,4), %xmm13
	pinsrb	$10, 42(%rcx,%r9,4), %xmm10
	pinsrb	$15, 61(%rcx,%r9,4), %xmm14
	pinsrb	$11, 46(%rcx,%r9,4), %xmm10
	pinsrb	$15, 63(%rcx,%r9,4), %xmm15
	pand	%xmm3, %xmm2
	pinsrb	$12, 50(%rcx,%r9,4), %xmm10
	psrlw	$2, %xmm1
	pand	%xmm3, %xmm5
	pinsrb	$13, 54(%rcx,%r9,4), %xmm10
	pand	%xmm3, %xmm1
	pand	%xmm3, %xmm0
	pinsrb	$14, 58(%rcx,%r9,4), %xmm10
	pmaxub	%xmm0, %xmm13
	pmaxub	%xmm5, %xmm14
	pinsrb	$15, 62(%rcx,%r9,4), %xmm10
	pmaxub	%xmm1, %xmm15
	pmaxub	%xmm2, %xmm10
	movdqa	%xmm13, %xmm0
	movdqa	%xmm10, %xmm1
	punpcklbw	%xmm14, %xmm0
	punpcklbw	%xmm15, %xmm1
	movdqa	%xmm0, %xmm2
	punpckhbw	%xmm14, %xmm13
	punpckhwd	%xmm1, %xmm0
	punpckhbw	%xmm15, %xmm10
	movdqa	%xmm13, %xmm3
	punpcklwd	%xmm10, %xmm3
	punpcklwd	%xmm1, %xmm2
	punpckhwd	%xmm10, %xmm13
	movdqu	%xmm13, 48(%rcx,%r9,4)
	movdqu	%xmm3, 32(%rcx,%r9,4)
	movdqu	%xmm0, 16(%rcx,%r9,4)
	movdqu	%xmm2, (%rcx,%r9,4)
	addq	$16, %r9
	addq	$48, %r8
	cmpq	%r9, %rdx
	jne	.LBBa52ca417_302
	cmpl	%edx, %eax
	leaq	160(%rsp), %r13
	movq	16(%rsp), %rbp
	movq	80(%rsp), %r15
	movq	112(%rsp), %r12
	movq	(%rsp), %r9
	je	.LBBa52ca417_116
	testb	$8, %al
	je	.LBBa52ca417_114
	jmp	.LBBa52ca417_248
.LBBa52ca417_355:
	movb	$1, %r15b
	xorl	%ebp, %ebp
	xorl	%r13d, %r13d
	movq	$0, (%rsp)
.LBBa52ca417_356:
	movzbl	152(%rsp), %edx
	movq	168(%rsp), %rax
	movq	176(%rsp), %rdi
	movq	184(%rsp), %rcx
	movq	192(%rsp), %r9
	movq	200(%rsp), %r10
	leaq	.LJTIa52ca417_4(%rip), %rsi
	movslq	(%rsi,%rdx,4), %rdx
	addq	%rsi, %rdx
	movq	(%rsp), %r12
	movl	%ebx, %r14d
	jmpq	*%rdx
.LBBa52ca417_305:
	cmpq	$32, %r10
	jae	.LBBa52ca417_399
	xorl	%ecx, %ecx
	movq	%rsi, %r9
	movq	%r10, %rsi
	jmp	.LBBa52ca417_403
.LBBa52ca417_307:
	movq	%r12, %rcx
	andq	$-32, %rcx
	leaq	(%rax,%rbp), %rdx
	addq	$16, %rdx
	xorl	%esi, %esi
.LBBa52ca417_308:
	movdqu	(%r15,%rsi), %xmm0
	movdqu	16(%r15,%rsi), %xmm1
	movdqu	%xmm0, -16(%rdx,%rsi)
	movdqu	%xmm1, (%rdx,%rsi)
	addq	$32, %rsi
	cmpq	%rsi, %rcx
	jne	.LBBa52ca417_308
	cmpq	%rcx, %r12
	je	.LBBa52ca417_320
	testb	$28, %r12b
	je	.LBBa52ca417_314
.LBBa52ca417_311:
	movq	%rcx, %rdx
	movq	%r12, %rcx
	andq	$-4, %rcx
.LBBa52ca417_312:
	movl	(%r15,%rdx), %esi
	movl	%esi, (%rdi,%rdx)
	addq	$4, %rdx
	cmpq	%rdx, %rcx
	jne	.LBBa52ca417_312
	cmpq	%rcx, %r12
	je	.LBBa52ca417_320
	jmp	.LBBa52ca417_314
.LBBa52ca417_322:
	movq	%r14, %rax
	andq	$-32, %rax
	leaq	(%r8,%rbp), %rcx
	addq	$16, %rcx
	xorl	%edx, %edx
.LBBa52ca417_323:
	movdqu	(%r15,%rdx), %xmm0
	movdqu	16(%r15,%rdx), %xmm1
	movdqu	%xmm0, -16(%rcx,%rdx)
	movdqu	%xmm1, (%rcx,%rdx)
	addq	$32, %rdx
	cmpq	%rdx, %rax
	jne	.LBBa52ca417_323
	cmpq	%rax, %r14
	movq	%r8, %r13
	je	.LBBa52ca417_335
	testb	$28, %r14b
	je	.LBBa52ca417_329
.LBBa52ca417_326:
	movq	%rax, %rcx
	movq	%r14, %rax
	andq	$-4, %rax
.LBBa52ca417_327:
	movl	(%r15,%rcx), %edx
	movl	%edx, (%rdi,%rcx)
	addq	$4, %rcx
	cmpq	%rcx, %rax
	jne	.LBBa52ca417_327
	cmpq	%rax, %r14
	movq	%r8, %r13
	je	.LBBa52ca417_335
	jmp	.LBBa52ca417_329
.LBBa52ca417_357:
	leaq	240(%rsp), %rdi
	movq	%r12, %rsi
	callq	std_alloc.vec.Vec.grow_amortized.d7da23479759cf44
	testb	%al, %al
	je	.LBBa52ca417_425
	movq	248(%rsp), %rax
	movq	256(%rsp), %rcx
	movq	%rcx, (%rsp)
	jmp	.LBBa52ca417_236
.LBBa52ca417_359:
	leaq	336(%rsp), %rdi
	movq	%r14, %rsi
	callq	std_alloc.vec.Vec.grow_amortized.d7da23479759cf44
	testb	%al, %al
	je	.LBBa52ca417_428
	movq	344(%rsp), %r13
	movq	352(%rsp), %rax
	movq	%rax, (%rsp)
	jmp	.LBBa52ca417_193
.LBBa52ca417_361:
	xorl	%eax, %eax
	jmp	.LBBa52ca417_419
.LBBa52ca417_362:
	movq	$0, 16(%rsp)
.LBBa52ca417_363:
	addq	$-40, %rbx
	leal	-1(%r13), %ecx
	movl	$1, %edx
	movl	%ecx, 308(%rsp)
	shlq	%cl, %rdx
	movq	%rdx, 96(%rsp)
	subq	%rdx, %rbx
	jb	.LBBa52ca417_365
	movq	16(%rsp), %rax
	leaq	(,%rax,4), %rax
	cmpq	%rax, %rbx
	jae	.LBBa52ca417_368
.LBBa52ca417_365:
	xorl	%ebp, %ebp
	movq	40(%rsp), %rdi
	jmp	.LBBa52ca417_366
.LBBa52ca417_368:
	movq	8(%rsp), %rax
	addq	$40, %rax
	movq	%rax, 312(%rsp)
	pxor	%xmm0, %xmm0
	movdqa	%xmm0, 240(%rsp)
	movq	$0, 256(%rsp)
	movdqu	%xmm0, 648(%rsp)
	movdqu	%xmm0, 664(%rsp)
	movdqu	%xmm0, 680(%rsp)
	movdqu	%xmm0, 696(%rsp)
	movdqu	%xmm0, 712(%rsp)
	movdqu	%xmm0, 728(%rsp)
	movdqu	%xmm0, 744(%rsp)
	movdqu	%xmm0, 760(%rsp)
	movdqa	%xmm0, 416(%rsp)
	movdqa	%xmm0, 432(%rsp)
	movdqa	%xmm0, 448(%rsp)
	movdqa	%xmm0, 464(%rsp)
	movdqa	%xmm0, 480(%rsp)
	movdqa	%xmm0, 496(%rsp)
	movdqa	%xmm0, 512(%rsp)
	movdqa	%xmm0, 528(%rsp)
	movq	$0, 544(%rsp)
	movq	$0, 640(%rsp)
	cmpq	$0, 16(%rsp)
	je	.LBBa52ca417_438
	movq	96(%rsp), %rax
	movq	312(%rsp), %rcx
	addq	%rcx, %rax
	movq	%rax, 48(%rsp)
	movq	72(%rsp), %rax
	decl	%eax
	andl	$67108863, %eax
	movl	%eax, 560(%rsp)
	movq	$0, 272(%rsp)
	xorl	%r15d, %r15d
.LBBa52ca417_370:
	testb	$1, %r12b
	je	.LBBa52ca417_374
	cmpq	$4, %rbx
	jb	.LBBa52ca417_442
	addq	$-4, %rbx
	movq	48(%rsp), %rax
	movl	(%rax), %ecx
	addq	$4, %rax
	movq	%rax, 48(%rsp)
	movl	%ecx, 128(%rsp)
	testl	%ecx, %ecx
	jne	.LBBa52ca417_379
	movb	$9, %bpl
	movb	$1, 288(%rsp)
	jmp	.LBBa52ca417_395
.LBBa52ca417_374:
	addq	$4, 48(%rsp)
.LBBa52ca417_375:
	cmpq	$4, %rbx
	jb	.LBBa52ca417_442
	movq	48(%rsp), %rax
	movl	-4(%rax), %eax
	movl	%eax, 128(%rsp)
	testl	%eax, %eax
	jne	.LBBa52ca417_378
	incq	%r15
	addq	$4, 48(%rsp)
	addq	$-4, %rbx
	cmpq	16(%rsp), %r15
	jb	.LBBa52ca417_375
	jmp	.LBBa52ca417_397
.LBBa52ca417_378:
	addq	$-4, %rbx
.LBBa52ca417_379:
	movl	128(%rsp), %eax
	shrl	$26, %eax
	movl	%eax, 576(%rsp)
	movb	$9, %bpl
	movb	$1, 288(%rsp)
	je	.LBBa52ca417_395
	movl	128(%rsp), %eax
	andl	560(%rsp), %eax
	movl	%eax, 128(%rsp)
	cmpb	$1, 640(%rsp)
	jne	.LBBa52ca417_393
	cmpb	$0, 672(%rsp)
	je	.LBBa52ca417_384
	movq	688(%rsp), %rcx
	cmpq	$256, %rcx
	movl	$256, %eax
	cmovbq	%rcx, %rax
	testq	%rcx, %rcx
	je	.LBBa52ca417_389
	movq	680(%rsp), %rdx
	jmp	.LBBa52ca417_385
.LBBa52ca417_384:
	movl	$8, %eax
	leaq	676(%rsp), %rdx
.LBBa52ca417_385:
	movzbl	656(%rsp), %ecx
	movl	128(%rsp), %r8d
	movl	%r8d, %esi
	shrl	%cl, %esi
	movq	$-1, %rdi
	shlq	%cl, %rdi
	orl	$1, %esi
	notq	%rdi
	movl	%r8d, %ecx
.LBBa52ca417_386:
	andq	%rdi, %rcx
	movl	(%rdx,%rcx,4), %r8d
	testl	%r8d, %r8d
	je	.LBBa52ca417_390
	movl	%r8d, %r9d
	andl	$67108863, %r9d
	cmpl	128(%rsp), %r9d
	je	.LBBa52ca417_390
	addq	%rsi, %rcx
	decq	%rax
	jne	.LBBa52ca417_386
.LBBa52ca417_389:
	leaq	648(%rsp), %rdi
	leaq	744(%rsp), %rsi
	movl	128(%rsp), %edx
	callq	hll_coupons.aux_map_builder.has_mark.5da326502419fe7c
	jmp	.LBBa52ca417_391
.LBBa52ca417_390:
	testl	%r8d, %r8d
	setne	%dl
	xorl	%eax, %eax
.LBBa52ca417_391:
	testb	%al, %al
	jne	.LBBa52ca417_394
	testb	$1, %dl
	jne	.LBBa52ca417_395
.LBBa52ca417_393:
	movzbl	576(%rsp), %ecx
	leaq	640(%rsp), %rdi
	movq	400(%rsp), %rsi
	movl	128(%rsp), %edx
	callq	hll_registers.exception_map.add_exception.5da326502419fe7c
	movb	%al, 288(%rsp)
.LBBa52ca417_394:
	movl	%edx, %ebp
.LBBa52ca417_395:
	cmpb	$0, 288(%rsp)
	jne	.LBBa52ca417_528
	incq	272(%rsp)
	incq	%r15
	cmpq	16(%rsp), %r15
	jb	.LBBa52ca417_370
.LBBa52ca417_397:
	movzbl	640(%rsp), %ecx
	movq	272(%rsp), %rax
	cmpq	112(%rsp), %rax
	jne	.LBBa52ca417_501
	movzbl	744(%rsp), %eax
	jmp	.LBBa52ca417_440
.LBBa52ca417_399:
	movq	%r10, %rcx
	andq	$-32, %rcx
	leaq	(%rax,%rbp), %rdx
	addq	$16, %rdx
	xorl	%r8d, %r8d
	movq	%rsi, %r9
.LBBa52ca417_400:
	movdqu	(%r9,%r8), %xmm0
	movdqu	16(%r9,%r8), %xmm1
	movdqu	%xmm0, -16(%rdx,%r8)
	movdqu	%xmm1, (%rdx,%r8)
	addq	$32, %r8
	cmpq	%r8, %rcx
	jne	.LBBa52ca417_400
	cmpq	%rcx, %r10
	je	.LBBa52ca417_252
	movq	%r10, %rsi
	testb	$28, %sil
	je	.LBBa52ca417_213
.LBBa52ca417_403:
	movq	%rcx, %rdx
	movq	%rsi, %rcx
	andq	$-4, %rcx
.LBBa52ca417_404:
	movl	(%r9,%rdx), %esi
	movl	%esi, (%rdi,%rdx)
	addq	$4, %rdx
	cmpq	%rdx, %rcx
	jne	.LBBa52ca417_404
	movq	%r10, %rsi
	cmpq	%rcx, %r10
	jne	.LBBa52ca417_213
	jmp	.LBBa52ca417_252
.LBBa52ca417_406:
	leaq	240(%rsp), %rdi
	movq	%r14, %rbx
	movq	%r14, %rsi
	callq	std_alloc.vec.Vec.grow_amortized.d7da23479759cf44
	testb	%al, %al
	je	.LBBa52ca417_434
	movq	248(%rsp), %rax
	movq	256(%rsp), %r12
	movq	%rbx, %r14
	jmp	.LBBa52ca417_209
.LBBa52ca417_408:
	leaq	240(%rsp), %rdi
	movl	$1, %esi
	callq	std_alloc.vec.Vec.grow_amortized.d7da23479759cf44
	testb	%al, %al
	je	.LBBa52ca417_436
	movq	240(%rsp), %rbp
	movq	248(%rsp), %r13
	movq	256(%rsp), %r12
	jmp	.LBBa52ca417_253
.LBBa52ca417_410:
	movq	80(%rsp), %rdi
	movabsq	$9223372036854775792, %rax
	andl	%eax, %edi
	movq	112(%rsp), %rax
	movq	360(%rsp), %rcx
	addq	%rcx, %rax
	addq	96(%rsp), %rax
	movq	128(%rsp), %rcx
	leaq	(%rcx,%rax), %r13
	addq	$47, %r13
	xorl	%ebp, %ebp
.LBBa52ca417_411:
	movzbl	-47(%r13), %eax
	movd	%eax, %xmm6
	movzbl	-35(%r13), %r8d
	movzbl	-32(%r13), %eax
	pinsrb	$1, -44(%r13), %xmm6
	movzbl	-45(%r13), %ecx
	movd	%ecx, %xmm15
	pinsrb	$2, -41(%r13), %xmm6
	pinsrb	$1, -42(%r13), %xmm15
	pinsrb	$3, -38(%r13), %xmm6
	movdqa	%xmm6, 16(%rsp)
	movzbl	-29(%r13), %ecx
	pinsrb	$2, -39(%r13), %xmm15
	pinsrb	$3, -36(%r13), %xmm15
	pinsrb	$4, %r8d, %xmm6
	movzbl	-33(%r13), %r11d
	movdqa	%xmm15, %xmm5
	pinsrb	$4, %r11d, %xmm5
	movzbl	-26(%r13), %esi
	movzbl	-30(%r13), %r9d
	pinsrb	$5, %eax, %xmm6
	movd	%r8d, %xmm1
	movzbl	-27(%r13), %r8d
	pinsrb	$5, %r9d, %xmm5
	pinsrb	$4, %eax, %xmm1
	pinsrb	$6, %ecx, %xmm6
	pinsrb	$8, %ecx, %xmm1
	pinsrb	$6, %r8d, %xmm5
	movzbl	-23(%r13), %ecx
	movzbl	-24(%r13), %eax
	pinsrb	$7, %esi, %xmm6
	pinsrb	$12, %esi, %xmm1
	movdqa	%xmm1, 48(%rsp)
	pinsrb	$7, %eax, %xmm5
	movzbl	-20(%r13), %esi
	movd	%ecx, %xmm10
	pinsrb	$8, %ecx, %xmm6
	pinsrb	$4, %esi, %xmm10
	pinsrb	$9, %esi, %xmm6
	movzbl	-17(%r13), %ecx
	movzbl	-21(%r13), %esi
	pinsrb	$8, %esi, %xmm5
	movd	%esi, %xmm1
	movzbl	-18(%r13), %esi
	pinsrb	$9, %esi, %xmm5
	pinsrb	$8, %ecx, %xmm10
	pinsrb	$10, %ecx, %xmm6
	movzbl	-14(%r13), %ecx
	pinsrb	$4, %esi, %xmm1
	movzbl	-10(%r13), %esi
	movd	%esi, %xmm12
	movzbl	-15(%r13), %esi
	pinsrb	$10, %esi, %xmm5
	pinsrb	$12, %ecx, %xmm10
	pinsrb	$11, %ecx, %xmm6
	movzbl	-11(%r13), %ecx
	movd	%ecx, %xmm7
	pinsrb	$12, %ecx, %xmm6
	movzbl	-34(%r13), %ecx
	pinsrb	$8, %esi, %xmm1
	movzbl	-22(%r13), %esi
	movd	%esi, %xmm11
	movzbl	-12(%r13), %esi
	pinsrb	$11, %esi, %xmm5
	movd	%ecx, %xmm13
	movzbl	-9(%r13), %ecx
	pinsrb	$12, %ecx, %xmm5
	movd	%ecx, %xmm2
	pinsrb	$12, %esi, %xmm1
	movdqa	%xmm1, %xmm14
	movzbl	-8(%r13), %ecx
	pinsrb	$4, %ecx, %xmm7
	pinsrb	$13, %ecx, %xmm6
	movd	%r11d, %xmm3
	pinsrb	$4, %r9d, %xmm3
	movzbl	-6(%r13), %ecx
	pinsrb	$4, %ecx, %xmm2
	pinsrb	$13, %ecx, %xmm5
	movzbl	-5(%r13), %ecx
	pinsrb	$8, %r8d, %xmm3
	movzbl	-2(%r13), %r11d
	pinsrb	$8, %ecx, %xmm7
	pinsrb	$14, %ecx, %xmm6
	movzbl	-46(%r13), %ecx
	pinsrb	$12, %eax, %xmm3
	movzbl	-3(%r13), %r9d
	movd	%ecx, %xmm9
	movzbl	(%rdx,%rbp,4), %eax
	movd	%eax, %xmm1
	movzbl	1(%rdx,%rbp,4), %eax
	movd	%eax, %xmm8
	movzbl	(%r13), %eax
	pinsrb	$4, -7(%r13), %xmm12
	pinsrb	$8, -4(%r13), %xmm12
	pinsrb	$12, -1(%r13), %xmm12
	pinsrb	$8, %r9d, %xmm2
	pinsrb	$12, %r11d, %xmm7
	pinsrb	$12, %eax, %xmm2
	pslld	$16, %xmm2
	pslld	$8, %xmm12
	por	%xmm12, %xmm2
	por	%xmm7, %xmm12
	pinsrb	$14, %r9d, %xmm5
	movzbl	3(%rdx,%rbp,4), %ecx
	movd	%ecx, %xmm7
	pinsrb	$15, %r11d, %xmm6
	pinsrb	$4, -19(%r13), %xmm11
	pinsrb	$8, -16(%r13), %xmm11
	pinsrb	$12, -13(%r13), %xmm11
	movdqa	%xmm14, %xmm4
	pslld	$16, %xmm4
	pslld	$8, %xmm11
	por	%xmm11, %xmm4
	por	%xmm10, %xmm11
	pinsrb	$15, %eax, %xmm5
	movzbl	2(%rdx,%rbp,4), %eax
	movd	%eax, %xmm14
	pinsrb	$4, -31(%r13), %xmm13
	pinsrb	$4, -43(%r13), %xmm9
	pinsrb	$8, -28(%r13), %xmm13
	pinsrb	$8, -40(%r13), %xmm9
	pinsrb	$12, -25(%r13), %xmm13
	pinsrb	$1, 4(%rdx,%rbp,4), %xmm1
	pinsrb	$12, -37(%r13), %xmm9
	pmovzxbd	16(%rsp), %xmm10
	pinsrb	$2, 8(%rdx,%rbp,4), %xmm1
	pmovzxbd	%xmm15, %xmm15
	pslld	$16, %xmm3
	pinsrb	$3, 12(%rdx,%rbp,4), %xmm1
	pslld	$8, %xmm13
	por	%xmm13, %xmm3
	pinsrb	$4, 16(%rdx,%rbp,4), %xmm1
	por	48(%rsp), %xmm13
	pslld	$8, %xmm9
	pinsrb	$5, 20(%rdx,%rbp,4), %xmm1
	pslld	$16, %xmm15
	por	%xmm9, %xmm15
	pinsrb	$6, 24(%rdx,%rbp,4), %xmm1
	por	%xmm10, %xmm9
	psrld	$6, %xmm13
	pinsrb	$7, 28(%rdx,%rbp,4), %xmm1
	psrld	$6, %xmm11
	psrld	$6, %xmm12
	pinsrb	$1, 5(%rdx,%rbp,4), %xmm8
	psrld	$6, %xmm9
	movdqa	.LCPIa52ca417_16(%rip), %xmm10
	pinsrb	$2, 9(%rdx,%rbp,4), %xmm8
	pand	%xmm10, %xmm12
	psrld	$12, %xmm3
	pinsrb	$3, 13(%rdx,%rbp,4), %xmm8
	pand	%xmm10, %xmm11
	psrld	$12, %xmm4
	pinsrb	$4, 17(%rdx,%rbp,4), %xmm8
	pand	%xmm10, %xmm13
	psrld	$12, %xmm2
	pinsrb	$5, 21(%rdx,%rbp,4), %xmm8
	psrld	$12, %xmm15
	pinsrb	$6, 25(%rdx,%rbp,4), %xmm8
	pinsrb	$8, 32(%rdx,%rbp,4), %xmm1
	pand	%xmm10, %xmm2
	pinsrb	$7, 29(%rdx,%rbp,4), %xmm8
	packusdw	%xmm12, %xmm11
	pand	%xmm10, %xmm4
	pinsrb	$8, 33(%rdx,%rbp,4), %xmm8
	pand	%xmm10, %xmm9
	pand	%xmm10, %xmm3
	pinsrb	$1, 7(%rdx,%rbp,4), %xmm7
	packusdw	%xmm2, %xmm4
	pand	%xmm10, %xmm15
	pinsrb	$2, 11(%rdx,%rbp,4), %xmm7
	packusdw	%xmm13, %xmm9
	pinsrb	$3, 15(%rdx,%rbp,4), %xmm7
	pinsrb	$9, 36(%rdx,%rbp,4), %xmm1
	pinsrb	$4, 19(%rdx,%rbp,4), %xmm7
	pinsrb	$9, 37(%rdx,%rbp,4), %xmm8
	packusdw	%xmm3, %xmm15
	pinsrb	$5, 23(%rdx,%rbp,4), %xmm7
	packuswb	%xmm11, %xmm9
	movdqa	.LCPIa52ca417_6(%rip), %xmm10
	pinsrb	$6, 27(%rdx,%rbp,4), %xmm7
	packuswb	%xmm4, %xmm15
	pinsrb	$7, 31(%rdx,%rbp,4), %xmm7
	pinsrb	$10, 40(%rdx,%rbp,4), %xmm1
	pinsrb	$8, 35(%rdx,%rbp,4), %xmm7
	pinsrb	$10, 41(%rdx,%rbp,4), %xmm8
	pinsrb	$9, 39(%rdx,%rbp,4), %xmm7
	pinsrb	$11, 44(%rdx,%rbp,4), %xmm1
	pinsrb	$10, 43(%rdx,%rbp,4), %xmm7
	pinsrb	$11, 45(%rdx,%rbp,4), %xmm8
	pinsrb	$11, 47(%rdx,%rbp,4), %xmm7
	pinsrb	$12, 48(%rdx,%rbp,4), %xmm1
	pinsrb	$1, 6(%rdx,%rbp,4), %xmm14
	pinsrb	$12, 49(%rdx,%rbp,4), %xmm8
	pinsrb	$2, 10(%rdx,%rbp,4), %xmm14
	pinsrb	$12, 51(%rdx,%rbp,4), %xmm7
	pinsrb	$3, 14(%rdx,%rbp,4), %xmm14
	pinsrb	$13, 52(%rdx,%rbp,4), %xmm1
	pinsrb	$4, 18(%rdx,%rbp,4), %xmm14
	pinsrb	$13, 53(%rdx,%rbp,4), %xmm8
	pinsrb	$5, 22(%rdx,%rbp,4), %xmm14
	pinsrb	$13, 55(%rdx,%rbp,4), %xmm7
	pinsrb	$6, 26(%rdx,%rbp,4), %xmm14
	pinsrb	$14, 56(%rdx,%rbp,4), %xmm1
	pinsrb	$7, 30(%rdx,%rbp,4), %xmm14
	pinsrb	$14, 57(%rdx,%rbp,4), %xmm8
	pinsrb	$8, 34(%rdx,%rbp,4), %xmm14
	pinsrb	$14, 59(%rdx,%rbp,4), %xmm7
	pinsrb	$9, 38(%rdx,%rbp,4), %xmm14
	pinsrb	$15, 60(%rdx,%rbp,4), %xmm1
	pinsrb	$10, 42(%rdx,%rbp,4), %xmm14
	pinsrb	$15, 61(%rdx,%rbp,4), %xmm8
	pinsrb	$11, 46(%rdx,%rbp,4), %xmm14
	pinsrb	$15, 63(%rdx,%rbp,4), %xmm7
	pand	%xmm10, %xmm15
	pinsrb	$12, 50(%rdx,%rbp,4), %xmm14
	psrlw	$2, %xmm5
	pand	%xmm10, %xmm9
	pinsrb	$13, 54(%rdx,%rbp,4), %xmm14
	pand	%xmm10, %xmm5
	pand	%xmm10, %xmm6
	pinsrb	$14, 58(%rdx,%rbp,4), %xmm14
	pmaxub	%xmm6, %xmm1
	pmaxub	%xmm9, %xmm8
	pinsrb	$15, 62(%rdx,%rbp,4), %xmm14
	pmaxub	%xmm5, %xmm7
	pmaxub	%xmm15, %xmm14
	movdqa	%xmm1, %xmm4
	movdqa	%xmm14, %xmm5
	punpcklbw	%xmm8, %xmm4
	punpcklbw	%xmm7, %xmm5
	movdqa	%xmm4, %xmm6
	punpckhbw	%xmm8, %xmm1
	punpckhwd	%xmm5, %xmm4
	punpckhbw	%xmm7, %xmm14
	movdqa	%xmm1, %xmm7
	punpcklwd	%xmm14, %xmm7
	punpcklwd	%xmm5, %xmm6
	punpckhwd	%xmm14, %xmm1
	movdqu	%xmm1, 48(%rdx,%rbp,4)
	movdqu	%xmm7, 32(%rdx,%rbp,4)
	movdqu	%xmm4, 16(%rdx,%rbp,4)
	movdqu	%xmm6, (%rdx,%rbp,4)
	addq	$16, %rbp
	addq	$48, %r13
	cmpq	%rbp, %rdi
	jne	.LBBa52ca417_411
	movq	80(%rsp), %r11
	cmpl	%edi, %r11d
	leaq	160(%rsp), %r13
	movq	128(%rsp), %r15
	movdqa	320(%rsp), %xmm10
	movq	72(%rsp), %r12
	movdqa	368(%rsp), %xmm3
	movdqa	400(%rsp), %xmm2
	je	.LBBa52ca417_205
	testb	$8, %r11b
	je	.LBBa52ca417_203
	jmp	.LBBa52ca417_267
.LBBa52ca417_414:
	movl	%ecx, %edx
	andl	$67108862, %edx
	movq	8(%rsp), %rax
	leaq	104(%rax), %rsi
	pxor	%xmm0, %xmm0
	xorl	%eax, %eax
	pxor	%xmm2, %xmm2
	pxor	%xmm1, %xmm1
	pxor	%xmm3, %xmm3
.LBBa52ca417_415:
	movdqu	-64(%rsi), %xmm4
	pmaxub	%xmm0, %xmm4
	movdqu	-48(%rsi), %xmm5
	pmaxub	%xmm2, %xmm5
	movdqu	-32(%rsi), %xmm0
	pmaxub	%xmm1, %xmm0
	movdqu	-16(%rsi), %xmm1
	pmaxub	%xmm3, %xmm1
	movdqu	48(%rsi), %xmm3
	pmaxub	%xmm1, %xmm3
	movdqu	32(%rsi), %xmm1
	pmaxub	%xmm0, %xmm1
	movdqu	(%rsi), %xmm0
	pmaxub	%xmm4, %xmm0
	movdqu	16(%rsi), %xmm2
	pmaxub	%xmm5, %xmm2
	addq	$2, %rax
	subq	$-128, %rsi
	cmpq	%rax, %rdx
	jne	.LBBa52ca417_415
	testb	$1, %cl
	je	.LBBa52ca417_418
.LBBa52ca417_417:
	movdqa	%xmm3, %xmm4
	movdqa	%xmm1, %xmm3
	movdqa	%xmm2, %xmm1
	movdqa	%xmm0, %xmm2
	shlq	$6, %rax
	movdqu	(%rbx,%rax), %xmm0
	pmaxub	%xmm2, %xmm0
	movdqu	16(%rbx,%rax), %xmm2
	pmaxub	%xmm1, %xmm2
	movdqu	32(%rbx,%rax), %xmm1
	pmaxub	%xmm3, %xmm1
	movdqu	48(%rbx,%rax), %xmm3
	pmaxub	%xmm4, %xmm3
.LBBa52ca417_418:
	pmaxub	%xmm3, %xmm2
	pmaxub	%xmm1, %xmm0
	pmaxub	%xmm2, %xmm0
	pcmpeqd	%xmm1, %xmm1
	pxor	%xmm0, %xmm1
	movdqa	%xmm1, %xmm0
	psrlw	$8, %xmm0
	pminub	%xmm1, %xmm0
	phminposuw	%xmm0, %xmm0
	movd	%xmm0, %eax
	notb	%al
.LBBa52ca417_419:
	movl	$0, %r8d
	cmpb	$5, %r13b
	ja	.LBBa52ca417_467
	movl	%r14d, %r8d
	andl	$-64, %r8d
	movl	%r14d, %edx
	andl	$63, %edx
	movq	8(%rsp), %rsi
	addq	%r8, %rsi
	addq	$40, %rsi
	cmpl	$4, %edx
	jae	.LBBa52ca417_423
	xorl	%r8d, %r8d
	xorl	%edi, %edi
	jmp	.LBBa52ca417_466
.LBBa52ca417_422:
	movq	%r12, %rdi
	movq	%rbx, %rdx
	callq	memmove@PLT
	jmp	.LBBa52ca417_458
.LBBa52ca417_423:
	cmpl	$32, %edx
	jae	.LBBa52ca417_459
	xorl	%edi, %edi
	xorl	%r8d, %r8d
	jmp	.LBBa52ca417_463
.LBBa52ca417_425:
	movb	$12, %r14b
	movb	$1, %al
	movl	%eax, 48(%rsp)
	cmpq	$0, 256(%rsp)
	je	.LBBa52ca417_427
	movq	240(%rsp), %rdi
	callq	rattle_dealloc@PLT
.LBBa52ca417_427:
	xorl	%ebp, %ebp
	xorl	%r13d, %r13d
	movq	$0, (%rsp)
	jmp	.LBBa52ca417_321
.LBBa52ca417_428:
	movb	$12, %r14b
	cmpq	$0, 352(%rsp)
	je	.LBBa52ca417_430
	movq	336(%rsp), %rdi
	callq	rattle_dealloc@PLT
.LBBa52ca417_430:
	movb	$1, %r15b
	xorl	%r12d, %r12d
	movzbl	152(%rsp), %edx
	movq	168(%rsp), %rax
	movq	176(%rsp), %rdi
	movq	184(%rsp), %rcx
	movq	192(%rsp), %r9
	movq	200(%rsp), %r10
	leaq	.LJTIa52ca417_4(%rip), %rsi
	movslq	(%rsi,%rdx,4), %rdx
	addq	%rsi, %rdx
	xorl	%r13d, %r13d
	xorl	%ebp, %ebp
	jmpq	*%rdx
.LBBa52ca417_431:
	testb	%dil, %dil
	je	.LBBa52ca417_484
	testq	%r10, %r10
	je	.LBBa52ca417_484
	movq	%rcx, %rdi
	jmp	.LBBa52ca417_483
.LBBa52ca417_479:
	xorl	%ebp, %ebp
.LBBa52ca417_284:
	movq	112(%rsp), %rdi
.LBBa52ca417_299:
	callq	rattle_dealloc@PLT
.LBBa52ca417_300:
	movq	40(%rsp), %rdi
	pxor	%xmm5, %xmm5
	jmp	.LBBa52ca417_366
.LBBa52ca417_434:
	cmpq	$0, 256(%rsp)
	je	.LBBa52ca417_480
	movq	240(%rsp), %rdi
	callq	rattle_dealloc@PLT
	movb	$12, %r14b
	movb	$1, %r15b
	xorl	%r12d, %r12d
	movzbl	152(%rsp), %edx
	movq	168(%rsp), %rax
	movq	176(%rsp), %rdi
	movq	184(%rsp), %rcx
	movq	192(%rsp), %r9
	movq	200(%rsp), %r10
	leaq	.LJTIa52ca417_4(%rip), %rsi
	movslq	(%rsi,%rdx,4), %rdx
	addq	%rsi, %rdx
	xorl	%r13d, %r13d
	xorl	%ebp, %ebp
	jmpq	*%rdx
.LBBa52ca417_436:
	movb	$12, %r14b
	movb	$1, %al
	movl	%eax, 48(%rsp)
	cmpq	$0, 256(%rsp)
	je	.LBBa52ca417_481
	movq	240(%rsp), %rdi
	callq	rattle_dealloc@PLT
	jmp	.LBBa52ca417_481
.LBBa52ca417_438:
	movb	$8, %bpl
	cmpq	$0, 112(%rsp)
	jne	.LBBa52ca417_300
	xorl	%eax, %eax
	xorl	%ecx, %ecx
.LBBa52ca417_440:
	movq	%rcx, 416(%rsp)
	leaq	648(%rsp), %rcx
	movups	(%rcx), %xmm0
	movups	16(%rcx), %xmm1
	movups	32(%rcx), %xmm2
	movdqu	48(%rcx), %xmm3
	movups	%xmm0, 424(%rsp)
	movups	%xmm1, 440(%rsp)
	movups	%xmm2, 456(%rsp)
	movdqu	%xmm3, 472(%rsp)
	movdqu	712(%rsp), %xmm0
	movdqu	728(%rsp), %xmm1
	movdqu	752(%rsp), %xmm2
	movdqu	%xmm0, 488(%rsp)
	movdqu	%xmm1, 504(%rsp)
	movq	%rax, 520(%rsp)
	movdqa	%xmm2, 528(%rsp)
	movq	768(%rsp), %rax
	movq	%rax, 544(%rsp)
	leaq	240(%rsp), %rdi
	leaq	416(%rsp), %rsi
	callq	hll_registers.exception_map.built.5da326502419fe7c
	cmpb	$0, 240(%rsp)
	je	.LBBa52ca417_514
	movzbl	241(%rsp), %ebp
	jmp	.LBBa52ca417_300
.LBBa52ca417_442:
	cmpb	$1, 640(%rsp)
	jne	.LBBa52ca417_495
	movq	720(%rsp), %r14
	movq	728(%rsp), %rbx
	movq	736(%rsp), %rbp
	movzbl	744(%rsp), %eax
	movb	%al, (%rsp)
	movq	752(%rsp), %rax
	movq	%rax, 16(%rsp)
	movq	768(%rsp), %rax
	movq	%rax, 48(%rsp)
	cmpb	$0, 672(%rsp)
	je	.LBBa52ca417_446
	cmpq	$0, 696(%rsp)
	je	.LBBa52ca417_446
	movq	680(%rsp), %rdi
	callq	rattle_dealloc@PLT
.LBBa52ca417_446:
	testq	%rbx, %rbx
	je	.LBBa52ca417_496
	leaq	64(%r14), %r12
	jmp	.LBBa52ca417_449
.LBBa52ca417_448:
	addq	$72, %r12
	decq	%rbx
	je	.LBBa52ca417_496
.LBBa52ca417_449:
	movq	-16(%r12), %r15
	movq	(%r12), %r13
	cmpq	$0, -24(%r12)
	je	.LBBa52ca417_451
	movq	-40(%r12), %rdi
	callq	rattle_dealloc@PLT
.LBBa52ca417_451:
	testq	%r13, %r13
	je	.LBBa52ca417_448
	movq	%r15, %rdi
	callq	rattle_dealloc@PLT
	jmp	.LBBa52ca417_448
.LBBa52ca417_453:
	movq	16(%rsp), %rdx
	andl	$-8, %edx
	movl	$40, %esi
	xorl	%ecx, %ecx
.LBBa52ca417_454:
	movq	8(%rsp), %rdi
	movzwl	(%rdi,%rsi), %r8d
	movzbl	2(%rdi,%rsi), %r9d
	movb	%r9b, -38(%r12,%rsi)
	movw	%r8w, -40(%r12,%rsi)
	movzwl	3(%rdi,%rsi), %r8d
	movzbl	5(%rdi,%rsi), %r9d
	movb	%r9b, -35(%r12,%rsi)
	movw	%r8w, -37(%r12,%rsi)
	movzwl	6(%rdi,%rsi), %r8d
	movzbl	8(%rdi,%rsi), %r9d
	movb	%r9b, -32(%r12,%rsi)
	movw	%r8w, -34(%r12,%rsi)
	movzwl	9(%rdi,%rsi), %r8d
	movzbl	11(%rdi,%rsi), %r9d
	movb	%r9b, -29(%r12,%rsi)
	movw	%r8w, -31(%r12,%rsi)
	movzwl	12(%rdi,%rsi), %r8d
	movzbl	14(%rdi,%rsi), %r9d
	movb	%r9b, -26(%r12,%rsi)
	movw	%r8w, -28(%r12,%rsi)
	movzwl	15(%rdi,%rsi), %r8d
	movzbl	17(%rdi,%rsi), %r9d
	movb	%r9b, -23(%r12,%rsi)
	movw	%r8w, -25(%r12,%rsi)
	movzwl	18(%rdi,%rsi), %r8d
	movzbl	20(%rdi,%rsi), %r9d
	movb	%r9b, -20(%r12,%rsi)
	movw	%r8w, -22(%r12,%rsi)
	movzwl	21(%rdi,%rsi), %r8d
	movzbl	23(%rdi,%rsi), %edi
	movb	%dil, -17(%r12,%rsi)
	movw	%r8w, -19(%r12,%rsi)
	addq	$8, %rcx
	addq	$24, %rsi
	cmpq	%rcx, %rdx
	jne	.LBBa52ca417_454
	testq	%rax, %rax
	je	.LBBa52ca417_458
.LBBa52ca417_456:
	leaq	(%rcx,%rcx,2), %rcx
	movq	8(%rsp), %rdx
	addq	%rcx, %rdx
	addq	$40, %rdx
	addq	%r12, %rcx
	leaq	(%rax,%rax,2), %rax
	xorl	%esi, %esi
.LBBa52ca417_457:
	movzwl	(%rdx,%rsi), %edi
	movzbl	2(%rdx,%rsi), %r8d
	movb	%r8b, 2(%rcx,%rsi)
	movw	%di, (%rcx,%rsi)
	addq	$3, %rsi
	cmpq	%rsi, %rax
	jne	.LBBa52ca417_457
.LBBa52ca417_458:
	movq	%r12, %r8
	shrq	$32, %r12
	movl	$3, %ecx
	movb	$1, %dl
	xorl	%ebp, %ebp
	movl	%r13d, %r15d
	movq	40(%rsp), %rdi
	pxor	%xmm5, %xmm5
	movq	320(%rsp), %r11
	movq	368(%rsp), %r9
	movq	%r14, %r10
	jmp	.LBBa52ca417_43
.LBBa52ca417_459:
	movl	%r14d, %edi
	andl	$32, %edi
	movq	8(%rsp), %r9
	addq	%r9, %r8
	addq	$56, %r8
	pxor	%xmm0, %xmm0
	xorl	%r9d, %r9d
	pxor	%xmm1, %xmm1
.LBBa52ca417_460:
	movdqu	-16(%r8,%r9), %xmm2
	pmaxub	%xmm2, %xmm0
	movdqu	(%r8,%r9), %xmm2
	pmaxub	%xmm2, %xmm1
	addq	$32, %r9
	cmpq	%r9, %rdi
	jne	.LBBa52ca417_460
	pmaxub	%xmm1, %xmm0
	pcmpeqd	%xmm1, %xmm1
	pxor	%xmm0, %xmm1
	movdqa	%xmm1, %xmm0
	psrlw	$8, %xmm0
	pminub	%xmm1, %xmm0
	phminposuw	%xmm0, %xmm0
	movd	%xmm0, %r8d
	notb	%r8b
	cmpl	%edi, %edx
	je	.LBBa52ca417_467
	testb	$28, %r14b
	je	.LBBa52ca417_466
.LBBa52ca417_463:
	movq	%rdi, %r9
	movl	%r14d, %edi
	andl	$60, %edi
	movzbl	%r8b, %r8d
	movd	%r8d, %xmm0
	punpcklbw	%xmm0, %xmm0
	pshuflw	$0, %xmm0, %xmm0
.LBBa52ca417_464:
	movd	(%rsi,%r9), %xmm1
	pmaxub	%xmm1, %xmm0
	addq	$4, %r9
	cmpq	%r9, %rdi
	jne	.LBBa52ca417_464
	movdqa	%xmm0, %xmm1
	psrld	$16, %xmm1
	pmaxub	%xmm0, %xmm1
	movdqa	%xmm1, %xmm0
	psrlw	$8, %xmm0
	pmaxub	%xmm1, %xmm0
	movd	%xmm0, %r8d
	cmpl	%edi, %edx
	je	.LBBa52ca417_467
.LBBa52ca417_466:
	movzbl	(%rsi,%rdi), %r9d
	movzbl	%r8b, %r8d
	cmpb	%r8b, %r9b
	cmoval	%r9d, %r8d
	incq	%rdi
	cmpq	%rdi, %rdx
	jne	.LBBa52ca417_466
.LBBa52ca417_467:
	movzbl	%al, %eax
	movzbl	%r8b, %edx
	cmpb	%dl, %al
	cmoval	%eax, %edx
	cmpb	$63, %dl
	ja	.LBBa52ca417_476
	movq	8(%rsp), %rax
	movq	8(%rax), %rcx
	movq	%rcx, 48(%rsp)
	movq	16(%rax), %rcx
	movq	%rcx, 368(%rsp)
	movq	24(%rax), %rax
	movq	%rax, 320(%rsp)
	movl	$1, %esi
	movq	%r14, %rdi
	callq	rattle_alloc@PLT
	testb	$1, %al
	je	.LBBa52ca417_475
	movq	%rdx, %r12
	movq	80(%rsp), %rax
	andl	$1, %eax
	movq	%rax, 360(%rsp)
	movq	%rdx, %rax
	subq	%rbx, %rax
	cmpq	%r14, %rax
	jae	.LBBa52ca417_477
	cmpb	$1, %r13b
	jbe	.LBBa52ca417_472
	movq	%r12, %rax
	subq	8(%rsp), %rax
	addq	$-40, %rax
	cmpq	$32, %rax
	jae	.LBBa52ca417_522
.LBBa52ca417_472:
	cmpb	$2, %r13b
	jae	.LBBa52ca417_512
	xorl	%eax, %eax
.LBBa52ca417_474:
	movzbl	(%rbx,%rax), %ecx
	movb	%cl, (%r12,%rax)
	incq	%rax
	cmpq	%rax, %r14
	jne	.LBBa52ca417_474
	jmp	.LBBa52ca417_527
.LBBa52ca417_475:
	xorl	%edx, %edx
	movb	$12, %bpl
	xorl	%r15d, %r15d
	xorl	%ecx, %ecx
	xorl	%r8d, %r8d
	xorl	%r12d, %r12d
	movq	$0, 16(%rsp)
	movq	$0, 48(%rsp)
	xorl	%r9d, %r9d
	xorl	%r11d, %r11d
	xorl	%r10d, %r10d
	movq	40(%rsp), %rdi
	pxor	%xmm5, %xmm5
	jmp	.LBBa52ca417_43
.LBBa52ca417_476:
	movb	$10, %bpl
	xorl	%edx, %edx
	xorl	%r15d, %r15d
	xorl	%ecx, %ecx
	xorl	%r8d, %r8d
	movq	$0, 16(%rsp)
	movq	$0, 48(%rsp)
	xorl	%r9d, %r9d
	xorl	%r11d, %r11d
	xorl	%r10d, %r10d
	movq	40(%rsp), %rdi
	pxor	%xmm5, %xmm5
	xorl	%r12d, %r12d
	jmp	.LBBa52ca417_43
.LBBa52ca417_477:
	movq	%r12, %rdi
	movq	%rbx, %rsi
	movq	%r14, %rdx
	callq	memmove@PLT
	jmp	.LBBa52ca417_527
.LBBa52ca417_480:
	movb	$12, %r14b
	movb	$1, %al
	movl	%eax, 48(%rsp)
.LBBa52ca417_481:
	xorl	%ebp, %ebp
	xorl	%r13d, %r13d
	xorl	%r12d, %r12d
	movzbl	152(%rsp), %edx
	movq	168(%rsp), %rax
	movq	176(%rsp), %rdi
	movq	184(%rsp), %rcx
	movq	192(%rsp), %r9
	movq	200(%rsp), %r10
	leaq	.LJTIa52ca417_4(%rip), %rsi
	movslq	(%rsi,%rdx,4), %rdx
	addq	%rsi, %rdx
	movl	48(%rsp), %r15d
	jmpq	*%rdx
.LBBa52ca417_482:
	testq	%r9, %r9
	je	.LBBa52ca417_484
.LBBa52ca417_483:
	callq	rattle_dealloc@PLT
.LBBa52ca417_484:
	movq	40(%rsp), %rax
.LBBa52ca417_485:
	movb	%r15b, (%rax)
	movb	%r14b, 1(%rax)
	movq	%rbp, 8(%rax)
	movq	%r13, 16(%rax)
	movq	%r12, 24(%rax)
	jmp	.LBBa52ca417_367
.LBBa52ca417_486:
	testq	%rcx, %rcx
	je	.LBBa52ca417_488
	movq	%rax, %rdi
	movq	%r12, %rbx
	movq	%r9, %r12
	movq	%rbp, (%rsp)
	movq	%r13, %rbp
	movq	%r10, %r13
	callq	rattle_dealloc@PLT
	movq	%r13, %r10
	movq	%rbp, %r13
	movq	(%rsp), %rbp
	movq	%r12, %r9
	movq	%rbx, %r12
.LBBa52ca417_488:
	testb	%r9b, %r9b
	je	.LBBa52ca417_484
	movl	%r15d, 48(%rsp)
	movl	%r14d, 16(%rsp)
	movq	%r13, (%rsp)
	movq	%rbp, %r13
	movq	%r12, %rbx
	movq	32(%r10), %r15
	movq	48(%r10), %r12
	movzbl	24(%r10), %ebp
	movq	%r10, %rdi
	callq	rattle_dealloc@PLT
	testb	%bpl, %bpl
	je	.LBBa52ca417_493
	testq	%r12, %r12
	movq	%rbx, %r12
	movq	%r13, %rbp
	je	.LBBa52ca417_492
	movq	%r15, %rdi
	callq	rattle_dealloc@PLT
.LBBa52ca417_492:
	movq	40(%rsp), %rax
	jmp	.LBBa52ca417_494
.LBBa52ca417_493:
	movq	40(%rsp), %rax
	movq	%rbx, %r12
	movq	%r13, %rbp
.LBBa52ca417_494:
	movq	(%rsp), %r13
	movl	16(%rsp), %r14d
	movl	48(%rsp), %r15d
	jmp	.LBBa52ca417_485
.LBBa52ca417_495:
	xorl	%ebp, %ebp
	jmp	.LBBa52ca417_300
.LBBa52ca417_496:
	testq	%rbp, %rbp
	je	.LBBa52ca417_498
	movq	%r14, %rdi
	callq	rattle_dealloc@PLT
.LBBa52ca417_498:
	xorl	%ebp, %ebp
	cmpb	$1, (%rsp)
	jne	.LBBa52ca417_300
	cmpq	$0, 48(%rsp)
	je	.LBBa52ca417_300
	movq	16(%rsp), %rdi
	callq	rattle_dealloc@PLT
	xorl	%ebp, %ebp
	jmp	.LBBa52ca417_300
.LBBa52ca417_501:
	movb	$8, %bpl
	cmpl	$1, %ecx
	jne	.LBBa52ca417_300
	movq	720(%rsp), %r14
	movq	728(%rsp), %r12
	movq	736(%rsp), %rax
	movq	%rax, 48(%rsp)
	movzbl	744(%rsp), %eax
	movb	%al, (%rsp)
	movq	752(%rsp), %rax
	movq	%rax, 80(%rsp)
	movq	768(%rsp), %rax
	movq	%rax, 16(%rsp)
	cmpb	$0, 672(%rsp)
	je	.LBBa52ca417_505
	cmpq	$0, 696(%rsp)
	je	.LBBa52ca417_505
	movq	680(%rsp), %rdi
	callq	rattle_dealloc@PLT
.LBBa52ca417_505:
	testq	%r12, %r12
	je	.LBBa52ca417_539
	leaq	64(%r14), %r13
	jmp	.LBBa52ca417_508
.LBBa52ca417_507:
	addq	$72, %r13
	decq	%r12
	je	.LBBa52ca417_539
.LBBa52ca417_508:
	movq	-16(%r13), %r15
	movq	(%r13), %rbx
	cmpq	$0, -24(%r13)
	je	.LBBa52ca417_510
	movq	-40(%r13), %rdi
	callq	rattle_dealloc@PLT
.LBBa52ca417_510:
	testq	%rbx, %rbx
	je	.LBBa52ca417_507
	movq	%r15, %rdi
	callq	rattle_dealloc@PLT
	jmp	.LBBa52ca417_507
.LBBa52ca417_512:
	movl	%r14d, %eax
	andl	$-4, %eax
	xorl	%ecx, %ecx
.LBBa52ca417_513:
	movq	8(%rsp), %rdx
	movzbl	40(%rdx,%rcx), %esi
	movb	%sil, (%r12,%rcx)
	movzbl	41(%rdx,%rcx), %esi
	movb	%sil, 1(%r12,%rcx)
	movzbl	42(%rdx,%rcx), %esi
	movb	%sil, 2(%r12,%rcx)
	movzbl	43(%rdx,%rcx), %edx
	movb	%dl, 3(%r12,%rcx)
	addq	$4, %rcx
	cmpq	%rcx, %rax
	jne	.LBBa52ca417_513
	jmp	.LBBa52ca417_527
.LBBa52ca417_514:
	movzbl	248(%rsp), %eax
	movq	%rax, 16(%rsp)
	movq	256(%rsp), %rax
	movq	%rax, 48(%rsp)
	xorl	%r15d, %r15d
	movq	96(%rsp), %r12
	shrq	$6, %r12
	movl	$0, %ebx
	movl	$0, %eax
	movq	%rax, 288(%rsp)
	je	.LBBa52ca417_519
	movq	$0, 288(%rsp)
	movq	312(%rsp), %rbp
	xorl	%ebx, %ebx
	jmp	.LBBa52ca417_517
.LBBa52ca417_516:
	pxor	%xmm0, %xmm0
	movdqa	128(%rsp), %xmm4
	pcmpeqb	%xmm0, %xmm4
	movdqa	.LCPIa52ca417_1(%rip), %xmm1
	pand	%xmm1, %xmm4
	movdqa	112(%rsp), %xmm2
	pcmpeqb	%xmm0, %xmm2
	pand	%xmm1, %xmm2
	movdqa	592(%rsp), %xmm5
	movdqa	%xmm5, %xmm1
	movdqa	.LCPIa52ca417_0(%rip), %xmm3
	pminub	%xmm3, %xmm1
	pcmpeqb	%xmm5, %xmm1
	psubb	%xmm1, %xmm4
	movdqa	608(%rsp), %xmm5
	movdqa	%xmm5, %xmm1
	pminub	%xmm3, %xmm1
	pcmpeqb	%xmm5, %xmm1
	psubb	%xmm1, %xmm2
	movdqa	624(%rsp), %xmm7
	pcmpeqb	%xmm0, %xmm7
	movdqa	560(%rsp), %xmm5
	pcmpeqb	%xmm0, %xmm5
	movdqa	576(%rsp), %xmm6
	movdqa	%xmm6, %xmm1
	pminub	%xmm3, %xmm1
	pcmpeqb	%xmm6, %xmm1
	psubb	%xmm1, %xmm4
	psubb	%xmm7, %xmm4
	movdqa	272(%rsp), %xmm1
	pminub	%xmm1, %xmm3
	pcmpeqb	%xmm1, %xmm3
	psubb	%xmm3, %xmm2
	psubb	%xmm5, %xmm2
	paddb	%xmm4, %xmm2
	pshufd	$238, %xmm2, %xmm1
	paddb	%xmm2, %xmm1
	psadbw	%xmm0, %xmm1
	pextrb	$0, %xmm1, %ecx
	addl	%eax, %ebx
	movq	288(%rsp), %rax
	addl	%ecx, %eax
	movq	%rax, 288(%rsp)
	addq	$64, %rbp
	decq	%r12
	je	.LBBa52ca417_519
.LBBa52ca417_517:
	movdqa	.LCPIa52ca417_0(%rip), %xmm5
	movdqu	(%rbp), %xmm2
	movdqu	16(%rbp), %xmm0
	movdqu	32(%rbp), %xmm3
	movdqu	48(%rbp), %xmm1
	movdqa	%xmm2, %xmm6
	pand	%xmm5, %xmm6
	movdqa	%xmm0, %xmm4
	pand	%xmm5, %xmm4
	movdqa	%xmm3, %xmm8
	pand	%xmm5, %xmm8
	movdqa	%xmm1, %xmm7
	pand	%xmm5, %xmm7
	movdqa	%xmm0, 608(%rsp)
	psrlw	$4, %xmm0
	pand	%xmm5, %xmm0
	movdqa	%xmm1, 272(%rsp)
	psrlw	$4, %xmm1
	pand	%xmm5, %xmm1
	movdqa	%xmm2, 592(%rsp)
	psrlw	$4, %xmm2
	pand	%xmm5, %xmm2
	movdqa	%xmm3, 576(%rsp)
	psrlw	$4, %xmm3
	pand	%xmm5, %xmm3
	movdqa	%xmm8, 624(%rsp)
	pmaxub	%xmm8, %xmm3
	movdqa	%xmm6, 128(%rsp)
	pmaxub	%xmm6, %xmm2
	pmaxub	%xmm3, %xmm2
	movdqa	%xmm7, 560(%rsp)
	pmaxub	%xmm7, %xmm1
	movdqa	%xmm4, 112(%rsp)
	pmaxub	%xmm4, %xmm0
	pmaxub	%xmm1, %xmm0
	pmaxub	%xmm2, %xmm0
	pcmpeqb	%xmm5, %xmm0
	pmovmskb	%xmm0, %ecx
	movl	$0, %eax
	testl	%ecx, %ecx
	je	.LBBa52ca417_516
	movq	%rbp, %rdi
	callq	hll_kernels.nibbles.some_mark_nibbles_in
	movzbl	%al, %eax
	jmp	.LBBa52ca417_516
.LBBa52ca417_519:
	movabsq	$9223372036854775792, %rbp
	cmpb	$5, 308(%rsp)
	ja	.LBBa52ca417_555
	leaq	-48(%rbp), %rsi
	movq	96(%rsp), %rax
	andq	%rax, %rsi
	andl	$63, %eax
	movq	312(%rsp), %rcx
	addq	%rsi, %rcx
	cmpl	$8, %eax
	jae	.LBBa52ca417_544
	xorl	%edx, %edx
	xorl	%edi, %edi
	jmp	.LBBa52ca417_547
.LBBa52ca417_522:
	movl	%r14d, %eax
	cmpb	$5, %r13b
	jae	.LBBa52ca417_525
	andl	$252, %eax
	xorl	%ecx, %ecx
.LBBa52ca417_524:
	movl	(%rbx,%rcx), %edx
	movl	%edx, (%r12,%rcx)
	addq	$4, %rcx
	cmpq	%rcx, %rax
	jne	.LBBa52ca417_524
	jmp	.LBBa52ca417_527
.LBBa52ca417_525:
	andl	$-32, %eax
	xorl	%ecx, %ecx
.LBBa52ca417_526:
	movq	8(%rsp), %rdx
	movdqu	40(%rdx,%rcx), %xmm0
	movdqu	56(%rdx,%rcx), %xmm1
	movdqu	%xmm0, (%r12,%rcx)
	movdqu	%xmm1, 16(%r12,%rcx)
	addq	$32, %rcx
	cmpq	%rcx, %rax
	jne	.LBBa52ca417_526
.LBBa52ca417_527:
	movq	%r12, %r8
	shrq	$32, %r12
	movl	$4, %ecx
	movb	$1, %dl
	xorl	%ebp, %ebp
	movl	%r13d, %r15d
	movq	%r14, 16(%rsp)
	movq	40(%rsp), %rdi
	pxor	%xmm5, %xmm5
	movq	320(%rsp), %r11
	movq	368(%rsp), %r9
	movq	360(%rsp), %r10
	jmp	.LBBa52ca417_43
.LBBa52ca417_528:
	cmpb	$1, 640(%rsp)
	jne	.LBBa52ca417_300
	movq	720(%rsp), %r14
	movq	728(%rsp), %r12
	movq	736(%rsp), %rax
	movq	%rax, 48(%rsp)
	movzbl	744(%rsp), %eax
	movb	%al, (%rsp)
	movq	752(%rsp), %rax
	movq	%rax, 80(%rsp)
	movq	768(%rsp), %rax
	movq	%rax, 16(%rsp)
	cmpb	$0, 672(%rsp)
	je	.LBBa52ca417_532
	cmpq	$0, 696(%rsp)
	je	.LBBa52ca417_532
	movq	680(%rsp), %rdi
	callq	rattle_dealloc@PLT
.LBBa52ca417_532:
	testq	%r12, %r12
	je	.LBBa52ca417_539
	leaq	64(%r14), %r13
	jmp	.LBBa52ca417_535
.LBBa52ca417_534:
	addq	$72, %r13
	decq	%r12
	je	.LBBa52ca417_539
.LBBa52ca417_535:
	movq	-16(%r13), %r15
	movq	(%r13), %rbx
	cmpq	$0, -24(%r13)
	je	.LBBa52ca417_537
	movq	-40(%r13), %rdi
	callq	rattle_dealloc@PLT
.LBBa52ca417_537:
	testq	%rbx, %rbx
	je	.LBBa52ca417_534
	movq	%r15, %rdi
	callq	rattle_dealloc@PLT
	jmp	.LBBa52ca417_534
.LBBa52ca417_539:
	cmpq	$0, 48(%rsp)
	je	.LBBa52ca417_541
	movq	%r14, %rdi
	callq	rattle_dealloc@PLT
.LBBa52ca417_541:
	cmpb	$1, (%rsp)
	jne	.LBBa52ca417_300
	cmpq	$0, 16(%rsp)
	je	.LBBa52ca417_300
	movq	80(%rsp), %rdi
	jmp	.LBBa52ca417_299
.LBBa52ca417_544:
	movq	96(%rsp), %rdi
	andl	$56, %edi
	movq	8(%rsp), %rdx
	addq	%rsi, %rdx
	addq	$44, %rdx
	pxor	%xmm0, %xmm0
	xorl	%r8d, %r8d
	pxor	%xmm1, %xmm1
	pxor	%xmm2, %xmm2
.LBBa52ca417_545:
	movd	-4(%rdx,%r8), %xmm4
	movdqa	.LCPIa52ca417_2(%rip), %xmm3
	movdqa	.LCPIa52ca417_4(%rip), %xmm5
	movdqa	%xmm4, %xmm6
	pmaxub	%xmm5, %xmm6
	pcmpeqb	%xmm4, %xmm6
	pand	%xmm3, %xmm4
	pcmpeqb	%xmm0, %xmm4
	pmovzxbd	%xmm4, %xmm4
	movdqa	.LCPIa52ca417_3(%rip), %xmm7
	pand	%xmm7, %xmm4
	paddd	%xmm1, %xmm4
	movd	(%rdx,%r8), %xmm8
	pand	%xmm8, %xmm3
	pcmpeqb	%xmm0, %xmm3
	pmovzxbd	%xmm3, %xmm3
	pand	%xmm7, %xmm3
	paddd	%xmm2, %xmm3
	pcmpeqd	%xmm2, %xmm2
	pxor	%xmm2, %xmm6
	pmovzxbd	%xmm6, %xmm1
	pand	%xmm7, %xmm1
	paddd	%xmm4, %xmm1
	pmaxub	%xmm8, %xmm5
	pcmpeqb	%xmm8, %xmm5
	pxor	%xmm2, %xmm5
	pmovzxbd	%xmm5, %xmm2
	pand	%xmm7, %xmm2
	paddd	%xmm3, %xmm2
	addq	$8, %r8
	cmpq	%r8, %rdi
	jne	.LBBa52ca417_545
	paddd	%xmm1, %xmm2
	pshufd	$238, %xmm2, %xmm0
	paddd	%xmm2, %xmm0
	pshufd	$85, %xmm0, %xmm1
	paddd	%xmm0, %xmm1
	movd	%xmm1, %edx
	cmpl	%edi, %eax
	je	.LBBa52ca417_548
.LBBa52ca417_547:
	movzbl	(%rcx,%rdi), %r8d
	movl	%r8d, %r9d
	andb	$15, %r9b
	xorl	%r10d, %r10d
	cmpb	$16, %r8b
	setb	%r10b
	cmpb	$1, %r9b
	adcl	%r10d, %edx
	incq	%rdi
	cmpq	%rdi, %rax
	jne	.LBBa52ca417_547
.LBBa52ca417_548:
	cmpl	$8, %eax
	jae	.LBBa52ca417_550
	xorl	%r15d, %r15d
	xorl	%edi, %edi
	jmp	.LBBa52ca417_553
.LBBa52ca417_550:
	movq	96(%rsp), %rdi
	andl	$56, %edi
	movq	8(%rsp), %r8
	addq	%r8, %rsi
	addq	$44, %rsi
	pxor	%xmm0, %xmm0
	xorl	%r8d, %r8d
	pxor	%xmm1, %xmm1
.LBBa52ca417_551:
	movd	-4(%rsi,%r8), %xmm5
	movd	(%rsi,%r8), %xmm3
	movdqa	.LCPIa52ca417_2(%rip), %xmm2
	movdqa	.LCPIa52ca417_5(%rip), %xmm4
	movdqa	%xmm5, %xmm6
	pminub	%xmm4, %xmm6
	pcmpeqb	%xmm5, %xmm6
	pand	%xmm2, %xmm5
	pminub	%xmm3, %xmm4
	pcmpeqb	%xmm3, %xmm4
	pand	%xmm2, %xmm3
	pcmpeqb	%xmm2, %xmm5
	pmovzxbd	%xmm5, %xmm5
	movdqa	.LCPIa52ca417_3(%rip), %xmm7
	pand	%xmm7, %xmm5
	paddd	%xmm1, %xmm5
	pcmpeqb	%xmm2, %xmm3
	pmovzxbd	%xmm3, %xmm2
	pand	%xmm7, %xmm2
	paddd	%xmm0, %xmm2
	pcmpeqd	%xmm0, %xmm0
	pxor	%xmm0, %xmm6
	pmovzxbd	%xmm6, %xmm1
	pand	%xmm7, %xmm1
	paddd	%xmm5, %xmm1
	pxor	%xmm0, %xmm4
	pmovzxbd	%xmm4, %xmm0
	pand	%xmm7, %xmm0
	paddd	%xmm2, %xmm0
	addq	$8, %r8
	cmpq	%r8, %rdi
	jne	.LBBa52ca417_551
	paddd	%xmm1, %xmm0
	pshufd	$238, %xmm0, %xmm1
	paddd	%xmm0, %xmm1
	pshufd	$85, %xmm1, %xmm0
	paddd	%xmm1, %xmm0
	movd	%xmm0, %r15d
	cmpl	%edi, %eax
	je	.LBBa52ca417_554
.LBBa52ca417_553:
	movzbl	(%rcx,%rdi), %esi
	movl	%esi, %r8d
	notb	%r8b
	andb	$15, %r8b
	xorl	%r9d, %r9d
	cmpb	$-16, %sil
	setae	%r9b
	cmpb	$1, %r8b
	adcl	%r9d, %r15d
	incq	%rdi
	cmpq	%rdi, %rax
	jne	.LBBa52ca417_553
.LBBa52ca417_554:
	addl	288(%rsp), %edx
	movq	%rdx, 288(%rsp)
.LBBa52ca417_555:
	addl	%ebx, %r15d
	cmpl	$1, 16(%rsp)
	jne	.LBBa52ca417_557
	movq	48(%rsp), %rax
	movq	16(%rax), %rax
	jmp	.LBBa52ca417_558
.LBBa52ca417_557:
	xorl	%eax, %eax
.LBBa52ca417_558:
	cmpq	%r15, %rax
	jne	.LBBa52ca417_568
	movq	%r14, %rax
	shrq	$57, %rax
	cmpl	$25, %eax
	jae	.LBBa52ca417_563
.LBBa52ca417_560:
	cmpl	$1, 16(%rsp)
	jne	.LBBa52ca417_584
	movq	48(%rsp), %rax
	cmpb	$0, 24(%rax)
	je	.LBBa52ca417_572
	movq	48(%rsp), %rcx
	movq	32(%rcx), %rax
	movq	40(%rcx), %rcx
	jmp	.LBBa52ca417_573
.LBBa52ca417_563:
	movabsq	$4611686018427387903, %rax
	incq	%rax
	cmpq	%rax, %r14
	jae	.LBBa52ca417_568
	movb	$63, %al
	subb	(%rsp), %al
	xorl	%ecx, %ecx
.LBBa52ca417_565:
	cmpq	%rcx, 96(%rsp)
	je	.LBBa52ca417_560
	movq	312(%rsp), %rdx
	movzbl	(%rdx,%rcx), %edx
	movl	%edx, %esi
	andb	$15, %sil
	cmpb	%al, %sil
	ja	.LBBa52ca417_568
	shrb	$4, %dl
	incq	%rcx
	cmpb	%al, %dl
	jbe	.LBBa52ca417_565
.LBBa52ca417_568:
	movb	$10, %bpl
	cmpl	$1, 16(%rsp)
	jne	.LBBa52ca417_300
	movq	48(%rsp), %rdi
	movq	32(%rdi), %rbx
	movq	48(%rdi), %r14
	movzbl	24(%rdi), %r15d
	callq	rattle_dealloc@PLT
	testb	%r15b, %r15b
	je	.LBBa52ca417_300
	testq	%r14, %r14
	je	.LBBa52ca417_300
	movq	%rbx, %rdi
	jmp	.LBBa52ca417_299
.LBBa52ca417_572:
	movq	48(%rsp), %rax
	addq	$28, %rax
	movl	$8, %ecx
.LBBa52ca417_573:
	movq	(%rsp), %rdx
	addl	$15, %edx
.LBBa52ca417_574:
	cmpq	$4, %rcx
	jae	.LBBa52ca417_579
.LBBa52ca417_575:
	testq	%rcx, %rcx
	je	.LBBa52ca417_584
	decq	%rcx
	movl	(%rax), %esi
	addq	$4, %rax
	testq	%rsi, %rsi
	je	.LBBa52ca417_575
	movl	%esi, %edi
	shrl	$26, %edi
	cmpb	%dil, %dl
	ja	.LBBa52ca417_568
	movl	%esi, %edi
	andl	$67108862, %edi
	shrl	%edi
	movq	312(%rsp), %r8
	movzbl	(%r8,%rdi), %edi
	movl	%edi, %r8d
	andb	$15, %r8b
	shrb	$4, %dil
	testb	$1, %sil
	movzbl	%r8b, %esi
	movzbl	%dil, %edi
	cmovel	%esi, %edi
	cmpb	$15, %dil
	je	.LBBa52ca417_574
	jmp	.LBBa52ca417_568
.LBBa52ca417_579:
	cmpl	$0, (%rax)
	jne	.LBBa52ca417_575
	cmpl	$0, 4(%rax)
	jne	.LBBa52ca417_575
	cmpl	$0, 8(%rax)
	jne	.LBBa52ca417_575
	cmpl	$0, 12(%rax)
	jne	.LBBa52ca417_575
	addq	$16, %rax
	addq	$-4, %rcx
	cmpq	$3, %rcx
	ja	.LBBa52ca417_579
	jmp	.LBBa52ca417_575
.LBBa52ca417_584:
	movq	16(%rsp), %rax
	movq	%rax, 336(%rsp)
	movq	48(%rsp), %rax
	movq	%rax, 344(%rsp)
	cmpl	$0, 288(%rsp)
	je	.LBBa52ca417_593
	cmpb	$63, 308(%rsp)
	je	.LBBa52ca417_596
	movl	$1, %esi
	movq	96(%rsp), %rdi
	callq	rattle_alloc@PLT
	movq	%rdx, 272(%rsp)
	testb	$1, %al
	je	.LBBa52ca417_596
	movq	272(%rsp), %rax
	subq	312(%rsp), %rax
	cmpq	96(%rsp), %rax
	jae	.LBBa52ca417_601
	cmpb	$1, 308(%rsp)
	jbe	.LBBa52ca417_590
	movq	272(%rsp), %rax
	subq	8(%rsp), %rax
	addq	$-40, %rax
	cmpq	$32, %rax
	jae	.LBBa52ca417_616
.LBBa52ca417_590:
	cmpb	$2, 308(%rsp)
	jae	.LBBa52ca417_614
	xorl	%eax, %eax
.LBBa52ca417_592:
	movq	312(%rsp), %rcx
	movzbl	(%rcx,%rax), %ecx
	movq	272(%rsp), %rdx
	movb	%cl, (%rdx,%rax)
	incq	%rax
	cmpq	%rax, 96(%rsp)
	jne	.LBBa52ca417_592
	jmp	.LBBa52ca417_621
.LBBa52ca417_593:
	movl	$1, %esi
	movq	72(%rsp), %rdi
	callq	rattle_alloc@PLT
	movq	%rdx, 8(%rsp)
	testb	$1, %al
	je	.LBBa52ca417_596
	testb	%r13b, %r13b
	je	.LBBa52ca417_602
	movq	72(%rsp), %rdx
	decq	%rdx
	movq	8(%rsp), %rdi
	xorl	%esi, %esi
	movq	%rdx, 72(%rsp)
	callq	memset@PLT
	jmp	.LBBa52ca417_603
.LBBa52ca417_596:
	cmpl	$1, 16(%rsp)
	jne	.LBBa52ca417_600
	movq	48(%rsp), %rdi
	movq	32(%rdi), %rbx
	movq	48(%rdi), %r14
	movzbl	24(%rdi), %ebp
	callq	rattle_dealloc@PLT
	testb	%bpl, %bpl
	je	.LBBa52ca417_600
	testq	%r14, %r14
	je	.LBBa52ca417_600
	movq	%rbx, %rdi
	callq	rattle_dealloc@PLT
.LBBa52ca417_600:
	movb	$12, %bpl
	jmp	.LBBa52ca417_300
.LBBa52ca417_601:
	movq	272(%rsp), %rdi
	movq	312(%rsp), %rsi
	movq	96(%rsp), %rdx
	callq	memmove@PLT
	jmp	.LBBa52ca417_621
.LBBa52ca417_602:
	movq	$0, 72(%rsp)
.LBBa52ca417_603:
	movq	72(%rsp), %r14
	movq	8(%rsp), %rdi
	movb	$0, (%rdi,%r14)
	leaq	1(%r14), %rsi
	movzbl	(%rsp), %r9d
	xorl	%ebx, %ebx
	leaq	336(%rsp), %r8
	movq	%rsi, 16(%rsp)
	xorl	%edx, %edx
	movq	312(%rsp), %rcx
	callq	hll_registers.exception_map.max_with_registers.f8e44fc08f8602d9
	cmpq	$3, %r14
	jae	.LBBa52ca417_605
	movb	$63, %al
	movq	%rax, (%rsp)
	jmp	.LBBa52ca417_622
.LBBa52ca417_605:
	cmpq	$31, 72(%rsp)
	jae	.LBBa52ca417_607
	movb	$63, %al
	movq	%rax, (%rsp)
	xorl	%ebx, %ebx
	jmp	.LBBa52ca417_611
.LBBa52ca417_607:
	movq	16(%rsp), %rbx
	andq	$-32, %rbx
	movdqa	.LCPIa52ca417_6(%rip), %xmm0
	xorl	%eax, %eax
	movdqa	%xmm0, %xmm1
.LBBa52ca417_608:
	movq	8(%rsp), %rcx
	movdqu	(%rcx,%rax), %xmm2
	pminub	%xmm2, %xmm0
	movdqu	16(%rcx,%rax), %xmm2
	pminub	%xmm2, %xmm1
	addq	$32, %rax
	cmpq	%rax, %rbx
	jne	.LBBa52ca417_608
	pminub	%xmm1, %xmm0
	movdqa	%xmm0, %xmm1
	psrlw	$8, %xmm1
	pminub	%xmm0, %xmm1
	phminposuw	%xmm1, %xmm0
	movd	%xmm0, %eax
	movq	%rax, (%rsp)
	cmpq	%rbx, 16(%rsp)
	je	.LBBa52ca417_624
	testb	$28, 16(%rsp)
	je	.LBBa52ca417_622
.LBBa52ca417_611:
	movq	%rbx, %rax
	movq	16(%rsp), %rbx
	andq	$-4, %rbx
	movzbl	(%rsp), %ecx
	movd	%ecx, %xmm0
	punpcklbw	%xmm0, %xmm0
	pshuflw	$0, %xmm0, %xmm0
.LBBa52ca417_612:
	movq	8(%rsp), %rcx
	movd	(%rcx,%rax), %xmm1
	pminub	%xmm1, %xmm0
	addq	$4, %rax
	cmpq	%rax, %rbx
	jne	.LBBa52ca417_612
	movdqa	%xmm0, %xmm1
	psrld	$16, %xmm1
	pminub	%xmm0, %xmm1
	movdqa	%xmm1, %xmm0
	psrlw	$8, %xmm0
	pminub	%xmm1, %xmm0
	movd	%xmm0, %eax
	movq	%rax, (%rsp)
	jmp	.LBBa52ca417_623
.LBBa52ca417_614:
	addq	$12, %rbp
	andq	96(%rsp), %rbp
	xorl	%eax, %eax
.LBBa52ca417_615:
	movq	8(%rsp), %rcx
	movzbl	40(%rcx,%rax), %edx
	movq	272(%rsp), %rsi
	movb	%dl, (%rsi,%rax)
	movzbl	41(%rcx,%rax), %edx
	movb	%dl, 1(%rsi,%rax)
	movzbl	42(%rcx,%rax), %edx
	movb	%dl, 2(%rsi,%rax)
	movzbl	43(%rcx,%rax), %ecx
	movb	%cl, 3(%rsi,%rax)
	addq	$4, %rax
	cmpq	%rax, %rbp
	jne	.LBBa52ca417_615
	jmp	.LBBa52ca417_621
.LBBa52ca417_616:
	cmpb	$5, 308(%rsp)
	jae	.LBBa52ca417_619
	movq	96(%rsp), %rax
	andl	$252, %eax
	xorl	%ecx, %ecx
.LBBa52ca417_618:
	movq	312(%rsp), %rdx
	movl	(%rdx,%rcx), %edx
	movq	272(%rsp), %rsi
	movl	%edx, (%rsi,%rcx)
	addq	$4, %rcx
	cmpq	%rcx, %rax
	jne	.LBBa52ca417_618
	jmp	.LBBa52ca417_621
.LBBa52ca417_619:
	addq	$-16, %rbp
	andq	96(%rsp), %rbp
	xorl	%eax, %eax
.LBBa52ca417_620:
	movq	8(%rsp), %rcx
	movdqu	40(%rcx,%rax), %xmm0
	movdqu	56(%rcx,%rax), %xmm1
	movq	272(%rsp), %rcx
	movdqu	%xmm0, (%rcx,%rax)
	movdqu	%xmm1, 16(%rcx,%rax)
	addq	$32, %rax
	cmpq	%rax, %rbp
	jne	.LBBa52ca417_620
.LBBa52ca417_621:
	movl	%r13d, %eax
	movq	%rax, 72(%rsp)
	movq	96(%rsp), %rbx
	movq	%rbx, 128(%rsp)
	movq	40(%rsp), %rdi
	movq	320(%rsp), %r11
	movq	(%rsp), %rax
	movq	368(%rsp), %rdx
	movq	360(%rsp), %r10
	jmp	.LBBa52ca417_693
.LBBa52ca417_622:
	movq	8(%rsp), %rax
	movzbl	(%rax,%rbx), %eax
	movq	(%rsp), %rcx
	movzbl	%cl, %ecx
	cmpb	%cl, %al
	cmovbl	%eax, %ecx
	movq	%rcx, (%rsp)
	incq	%rbx
.LBBa52ca417_623:
	cmpq	%rbx, 16(%rsp)
	jne	.LBBa52ca417_622
.LBBa52ca417_624:
	movq	$0, 288(%rsp)
	movq	16(%rsp), %rax
	shrq	%rax
	movq	%rax, 128(%rsp)
	je	.LBBa52ca417_628
	movl	$1, %esi
	movq	128(%rsp), %rdi
	callq	rattle_alloc@PLT
	movq	%rdx, 272(%rsp)
	testb	$1, %al
	je	.LBBa52ca417_629
	cmpq	$1, 128(%rsp)
	jne	.LBBa52ca417_630
	xorl	%ebx, %ebx
	jmp	.LBBa52ca417_631
.LBBa52ca417_628:
	leaq	399(%rsp), %rax
	movq	%rax, 272(%rsp)
	movq	$0, 96(%rsp)
	jmp	.LBBa52ca417_632
.LBBa52ca417_629:
	movb	$12, %bpl
	xorl	%ebx, %ebx
	movq	$0, 16(%rsp)
	movq	$0, 128(%rsp)
	movq	$0, 96(%rsp)
	movq	$0, 272(%rsp)
	jmp	.LBBa52ca417_688
.LBBa52ca417_630:
	movq	128(%rsp), %rax
	leaq	-1(%rax), %rdx
	movq	272(%rsp), %rdi
	xorl	%esi, %esi
	movq	%rdx, %rbx
	callq	memset@PLT
.LBBa52ca417_631:
	movq	272(%rsp), %rax
	movb	$0, (%rax,%rbx)
	incq	%rbx
	movq	%rbx, 96(%rsp)
.LBBa52ca417_632:
	movq	16(%rsp), %rax
	shrq	$5, %rax
	je	.LBBa52ca417_635
	movzbl	(%rsp), %ecx
	movd	%ecx, %xmm0
	pxor	%xmm1, %xmm1
	pshufb	%xmm1, %xmm0
	shlq	$4, %rax
	xorl	%ecx, %ecx
.LBBa52ca417_634:
	movq	8(%rsp), %rdx
	movdqu	(%rdx,%rcx,2), %xmm1
	movdqu	16(%rdx,%rcx,2), %xmm2
	psubusb	%xmm0, %xmm1
	movdqa	.LCPIa52ca417_0(%rip), %xmm3
	pminub	%xmm3, %xmm1
	psubusb	%xmm0, %xmm2
	pminub	%xmm3, %xmm2
	movdqa	.LCPIa52ca417_7(%rip), %xmm3
	movdqa	%xmm2, %xmm4
	pand	%xmm3, %xmm4
	pand	%xmm1, %xmm3
	packuswb	%xmm4, %xmm3
	movq	.LCPIa52ca417_23(%rip), %xmm4
	pshufb	%xmm4, %xmm2
	pshufb	%xmm4, %xmm1
	punpcklqdq	%xmm2, %xmm1
	psllw	$4, %xmm1
	por	%xmm3, %xmm1
	movq	272(%rsp), %rdx
	movdqu	%xmm1, (%rdx,%rcx)
	addq	$16, %rcx
	cmpq	%rcx, %rax
	jne	.LBBa52ca417_634
	jmp	.LBBa52ca417_636
.LBBa52ca417_635:
	xorl	%eax, %eax
.LBBa52ca417_636:
	movq	128(%rsp), %rcx
	andq	$15, %rcx
	je	.LBBa52ca417_643
	movq	16(%rsp), %rdx
	andq	$-32, %rdx
	addq	8(%rsp), %rdx
	addq	272(%rsp), %rax
	xorl	%esi, %esi
	xorl	%edi, %edi
	jmp	.LBBa52ca417_639
.LBBa52ca417_638:
	shlb	$4, %r9b
	orb	%r8b, %r9b
	movb	%r9b, (%rax,%rdi)
	incq	%rdi
	cmpq	%rdi, %rcx
	je	.LBBa52ca417_643
.LBBa52ca417_639:
	movzwl	(%rdx,%rdi,2), %r9d
	movl	%r9d, %r8d
	subb	(%rsp), %r8b
	movzbl	%r8b, %r8d
	cmovbl	%esi, %r8d
	cmpb	$15, %r8b
	jb	.LBBa52ca417_641
	movl	$15, %r8d
.LBBa52ca417_641:
	shrl	$8, %r9d
	subb	(%rsp), %r9b
	movzbl	%r9b, %r9d
	cmovbl	%esi, %r9d
	cmpb	$15, %r9b
	jb	.LBBa52ca417_638
	movl	$15, %r9d
	jmp	.LBBa52ca417_638
.LBBa52ca417_643:
	pxor	%xmm0, %xmm0
	movdqa	%xmm0, 240(%rsp)
	movq	$0, 256(%rsp)
	movq	16(%rsp), %rax
	shrq	$6, %rax
	movq	%rax, 560(%rsp)
	movdqa	%xmm0, 640(%rsp)
	movdqa	%xmm0, 656(%rsp)
	movdqa	%xmm0, 672(%rsp)
	movdqa	%xmm0, 688(%rsp)
	movdqa	%xmm0, 704(%rsp)
	movdqa	%xmm0, 720(%rsp)
	movdqa	%xmm0, 736(%rsp)
	movdqa	%xmm0, 752(%rsp)
	movq	$0, 768(%rsp)
	je	.LBBa52ca417_662
	movq	(%rsp), %rax
	leal	15(%rax), %r14d
	movzbl	%r14b, %eax
	movd	%eax, %xmm1
	pshufb	%xmm0, %xmm1
	movdqa	%xmm1, 288(%rsp)
	movq	$0, 112(%rsp)
	xorl	%r12d, %r12d
	jmp	.LBBa52ca417_646
.LBBa52ca417_645:
	movq	112(%rsp), %rcx
	incq	%rcx
	addq	$64, %r12
	movq	%rcx, 112(%rsp)
	cmpq	560(%rsp), %rcx
	je	.LBBa52ca417_662
.LBBa52ca417_646:
	movq	112(%rsp), %rax
	shlq	$6, %rax
	movq	8(%rsp), %rcx
	movdqu	(%rcx,%rax), %xmm0
	movdqu	16(%rcx,%rax), %xmm1
	movdqu	32(%rcx,%rax), %xmm2
	pmaxub	%xmm0, %xmm2
	movdqu	48(%rcx,%rax), %xmm0
	pmaxub	%xmm1, %xmm0
	pmaxub	%xmm2, %xmm0
	movdqa	288(%rsp), %xmm1
	pminub	%xmm1, %xmm0
	pcmpeqb	%xmm1, %xmm0
	pmovmskb	%xmm0, %eax
	testl	%eax, %eax
	je	.LBBa52ca417_645
	movq	8(%rsp), %rax
	leaq	(%rax,%r12), %rbx
	xorl	%r15d, %r15d
	jmp	.LBBa52ca417_649
.LBBa52ca417_648:
	incq	%r15
	cmpq	$64, %r15
	je	.LBBa52ca417_645
.LBBa52ca417_649:
	movzbl	(%rbx,%r15), %eax
	cmpb	%al, %r14b
	ja	.LBBa52ca417_648
	leal	(%r12,%r15), %edx
	movzbl	%al, %ecx
	leaq	640(%rsp), %rdi
	movq	400(%rsp), %rsi
	callq	hll_registers.exception_map.add_exception.5da326502419fe7c
	testb	%al, %al
	je	.LBBa52ca417_648
	movl	%edx, %ebp
	cmpb	$1, 640(%rsp)
	jne	.LBBa52ca417_685
	movq	720(%rsp), %rax
	movq	%rax, (%rsp)
	movq	728(%rsp), %r15
	movq	736(%rsp), %rax
	movq	%rax, 112(%rsp)
	movzbl	744(%rsp), %eax
	movb	%al, 16(%rsp)
	movq	752(%rsp), %rax
	movq	%rax, 72(%rsp)
	movq	768(%rsp), %rax
	movq	%rax, 96(%rsp)
	cmpb	$0, 672(%rsp)
	je	.LBBa52ca417_655
	cmpq	$0, 696(%rsp)
	je	.LBBa52ca417_655
	movq	680(%rsp), %rdi
	callq	rattle_dealloc@PLT
.LBBa52ca417_655:
	testq	%r15, %r15
	je	.LBBa52ca417_680
	movq	(%rsp), %rax
	leaq	64(%rax), %rbx
	jmp	.LBBa52ca417_658
.LBBa52ca417_657:
	addq	$72, %rbx
	decq	%r15
	je	.LBBa52ca417_680
.LBBa52ca417_658:
	movq	-16(%rbx), %r14
	movq	(%rbx), %r12
	cmpq	$0, -24(%rbx)
	je	.LBBa52ca417_660
	movq	-40(%rbx), %rdi
	callq	rattle_dealloc@PLT
.LBBa52ca417_660:
	testq	%r12, %r12
	je	.LBBa52ca417_657
	movq	%r14, %rdi
	callq	rattle_dealloc@PLT
	jmp	.LBBa52ca417_657
.LBBa52ca417_662:
	movq	16(%rsp), %rax
	movq	%rax, %rbx
	andq	$-64, %rbx
	cmpq	%rax, %rbx
	jne	.LBBa52ca417_665
.LBBa52ca417_663:
	movzbl	640(%rsp), %eax
	movq	%rax, 416(%rsp)
	leaq	648(%rsp), %rax
	movups	(%rax), %xmm0
	movups	16(%rax), %xmm1
	movdqu	32(%rax), %xmm2
	movdqu	48(%rax), %xmm3
	movups	%xmm0, 424(%rsp)
	movups	%xmm1, 440(%rsp)
	movdqu	%xmm2, 456(%rsp)
	movdqu	%xmm3, 472(%rsp)
	movups	712(%rsp), %xmm0
	movdqu	728(%rsp), %xmm1
	movups	%xmm0, 488(%rsp)
	movdqu	%xmm1, 504(%rsp)
	movzbl	744(%rsp), %eax
	movq	%rax, 520(%rsp)
	movdqa	752(%rsp), %xmm0
	movdqu	%xmm0, 528(%rsp)
	movq	768(%rsp), %rax
	movq	%rax, 544(%rsp)
	leaq	240(%rsp), %rdi
	leaq	416(%rsp), %rsi
	callq	hll_registers.exception_map.built.5da326502419fe7c
	cmpb	$0, 240(%rsp)
	je	.LBBa52ca417_694
	movzbl	241(%rsp), %ebp
	jmp	.LBBa52ca417_685
.LBBa52ca417_665:
	movq	(%rsp), %rax
	leal	15(%rax), %r14d
	movq	72(%rsp), %r12
	subq	%rbx, %r12
	incq	%r12
	movq	16(%rsp), %rax
	andl	$-64, %eax
	movq	%rax, 16(%rsp)
	addq	8(%rsp), %rbx
	xorl	%r15d, %r15d
	jmp	.LBBa52ca417_667
.LBBa52ca417_666:
	incq	%r15
	cmpq	%r15, %r12
	je	.LBBa52ca417_663
.LBBa52ca417_667:
	movzbl	(%rbx,%r15), %eax
	cmpb	%al, %r14b
	ja	.LBBa52ca417_666
	movq	16(%rsp), %rcx
	leal	(%rcx,%r15), %edx
	movzbl	%al, %ecx
	leaq	640(%rsp), %rdi
	movq	400(%rsp), %rsi
	callq	hll_registers.exception_map.add_exception.5da326502419fe7c
	testb	%al, %al
	je	.LBBa52ca417_666
	movl	%edx, %ebp
	cmpb	$1, 640(%rsp)
	jne	.LBBa52ca417_685
	movq	720(%rsp), %rax
	movq	%rax, (%rsp)
	movq	728(%rsp), %r15
	movq	736(%rsp), %rax
	movq	%rax, 112(%rsp)
	movzbl	744(%rsp), %eax
	movb	%al, 16(%rsp)
	movq	752(%rsp), %rax
	movq	%rax, 72(%rsp)
	movq	768(%rsp), %rax
	movq	%rax, 96(%rsp)
	cmpb	$0, 672(%rsp)
	je	.LBBa52ca417_673
	cmpq	$0, 696(%rsp)
	je	.LBBa52ca417_673
	movq	680(%rsp), %rdi
	callq	rattle_dealloc@PLT
.LBBa52ca417_673:
	testq	%r15, %r15
	je	.LBBa52ca417_680
	movq	(%rsp), %rax
	leaq	64(%rax), %rbx
	jmp	.LBBa52ca417_676
.LBBa52ca417_675:
	addq	$72, %rbx
	decq	%r15
	je	.LBBa52ca417_680
.LBBa52ca417_676:
	movq	-16(%rbx), %r14
	movq	(%rbx), %r12
	cmpq	$0, -24(%rbx)
	je	.LBBa52ca417_678
	movq	-40(%rbx), %rdi
	callq	rattle_dealloc@PLT
.LBBa52ca417_678:
	testq	%r12, %r12
	je	.LBBa52ca417_675
	movq	%r14, %rdi
	callq	rattle_dealloc@PLT
	jmp	.LBBa52ca417_675
.LBBa52ca417_680:
	cmpq	$0, 112(%rsp)
	je	.LBBa52ca417_682
	movq	(%rsp), %rdi
	callq	rattle_dealloc@PLT
.LBBa52ca417_682:
	cmpb	$1, 16(%rsp)
	jne	.LBBa52ca417_685
	cmpq	$0, 96(%rsp)
	je	.LBBa52ca417_685
	movq	72(%rsp), %rdi
	callq	rattle_dealloc@PLT
.LBBa52ca417_685:
	cmpq	$0, 128(%rsp)
	je	.LBBa52ca417_687
	movq	272(%rsp), %rdi
	callq	rattle_dealloc@PLT
.LBBa52ca417_687:
	xorl	%ebx, %ebx
	movq	$0, 16(%rsp)
	movq	$0, 128(%rsp)
	movq	$0, 96(%rsp)
	movq	$0, 272(%rsp)
	movq	$0, 288(%rsp)
.LBBa52ca417_688:
	movq	$0, (%rsp)
	movq	$0, 72(%rsp)
	xorl	%r12d, %r12d
	movq	8(%rsp), %rdi
	callq	rattle_dealloc@PLT
	cmpb	$1, 336(%rsp)
	jne	.LBBa52ca417_692
.LBBa52ca417_689:
	movq	48(%rsp), %rdi
	movq	32(%rdi), %rax
	movq	%rax, 8(%rsp)
	movq	48(%rdi), %r14
	movzbl	24(%rdi), %r15d
	callq	rattle_dealloc@PLT
	testb	%r15b, %r15b
	je	.LBBa52ca417_692
	testq	%r14, %r14
	je	.LBBa52ca417_692
	movq	8(%rsp), %rdi
	callq	rattle_dealloc@PLT
.LBBa52ca417_692:
	movq	%rbx, 48(%rsp)
	testb	%r12b, %r12b
	movq	40(%rsp), %rdi
	pxor	%xmm5, %xmm5
	movq	320(%rsp), %r11
	movq	(%rsp), %rax
	movq	368(%rsp), %rdx
	movq	360(%rsp), %r10
	movq	96(%rsp), %rbx
	je	.LBBa52ca417_366
.LBBa52ca417_693:
	movl	%eax, 112(%rsp)
	movq	80(%rsp), %rax
	andl	$1, %eax
	movq	%rax, 80(%rsp)
	movq	%rbx, 96(%rsp)
	shrq	$32, %rbx
	movabsq	$-4294967296, %rsi
	andq	%rdx, %rsi
	movq	%r11, %r8
	andq	$-256, %r8
	movq	%rdx, %rbp
	movq	%r10, %r9
	andq	$-256, %r9
	movl	$2, %edx
	movq	%rdx, 8(%rsp)
	xorl	%edx, %edx
	movq	272(%rsp), %r14
	movq	%r14, (%rsp)
	movq	16(%rsp), %r12
	movq	288(%rsp), %rcx
	movq	72(%rsp), %r15
	jmp	.LBBa52ca417_45
.LBBa52ca417_694:
	movq	96(%rsp), %rcx
	movq	%rcx, %rax
	andq	$-64, %rax
	andl	$63, %ecx
	movq	$0, 288(%rsp)
	movl	$0, %edx
	testq	%rax, %rax
	je	.LBBa52ca417_697
	xorl	%edx, %edx
	xorl	%esi, %esi
.LBBa52ca417_696:
	movdqa	.LCPIa52ca417_0(%rip), %xmm0
	movq	272(%rsp), %rdi
	movdqu	(%rdi,%rsi), %xmm3
	movdqu	16(%rdi,%rsi), %xmm5
	movdqu	32(%rdi,%rsi), %xmm2
	movdqu	48(%rdi,%rsi), %xmm1
	movdqa	%xmm3, %xmm6
	pminub	%xmm0, %xmm6
	pcmpeqb	%xmm3, %xmm6
	pand	%xmm0, %xmm3
	movdqa	%xmm5, %xmm7
	pminub	%xmm0, %xmm7
	pcmpeqb	%xmm5, %xmm7
	pand	%xmm0, %xmm5
	pxor	%xmm4, %xmm4
	pcmpeqb	%xmm4, %xmm3
	movdqa	.LCPIa52ca417_1(%rip), %xmm8
	pand	%xmm8, %xmm3
	pcmpeqb	%xmm4, %xmm5
	pand	%xmm8, %xmm5
	psubb	%xmm6, %xmm3
	psubb	%xmm7, %xmm5
	movdqa	%xmm2, %xmm6
	pminub	%xmm0, %xmm6
	pcmpeqb	%xmm2, %xmm6
	pand	%xmm0, %xmm2
	movdqa	%xmm1, %xmm7
	pand	%xmm0, %xmm7
	pcmpeqb	%xmm4, %xmm2
	pcmpeqb	%xmm4, %xmm7
	psubb	%xmm6, %xmm3
	psubb	%xmm2, %xmm3
	pminub	%xmm1, %xmm0
	pcmpeqb	%xmm1, %xmm0
	psubb	%xmm0, %xmm5
	psubb	%xmm7, %xmm5
	paddb	%xmm3, %xmm5
	pshufd	$238, %xmm5, %xmm0
	paddb	%xmm5, %xmm0
	psadbw	%xmm4, %xmm0
	pextrb	$0, %xmm0, %edi
	addl	%edi, %edx
	addq	$64, %rsi
	cmpq	%rsi, %rax
	jne	.LBBa52ca417_696
.LBBa52ca417_697:
	movzbl	248(%rsp), %esi
	movq	%rsi, 16(%rsp)
	testq	%rcx, %rcx
	je	.LBBa52ca417_705
	cmpl	$8, %ecx
	jae	.LBBa52ca417_700
	movq	$0, 288(%rsp)
	xorl	%esi, %esi
	jmp	.LBBa52ca417_703
.LBBa52ca417_700:
	movq	96(%rsp), %rsi
	andl	$56, %esi
	movq	272(%rsp), %rdi
	addq	%rax, %rdi
	addq	$4, %rdi
	pxor	%xmm0, %xmm0
	xorl	%r8d, %r8d
	pxor	%xmm1, %xmm1
	pxor	%xmm2, %xmm2
.LBBa52ca417_701:
	movd	-4(%rdi,%r8), %xmm4
	movdqa	.LCPIa52ca417_2(%rip), %xmm3
	movdqa	.LCPIa52ca417_4(%rip), %xmm5
	movdqa	%xmm4, %xmm6
	pmaxub	%xmm5, %xmm6
	pcmpeqb	%xmm4, %xmm6
	pand	%xmm3, %xmm4
	pcmpeqb	%xmm0, %xmm4
	pmovzxbd	%xmm4, %xmm4
	movdqa	.LCPIa52ca417_3(%rip), %xmm7
	pand	%xmm7, %xmm4
	paddd	%xmm1, %xmm4
	movd	(%rdi,%r8), %xmm8
	pand	%xmm8, %xmm3
	pcmpeqb	%xmm0, %xmm3
	pmovzxbd	%xmm3, %xmm3
	pand	%xmm7, %xmm3
	paddd	%xmm2, %xmm3
	pcmpeqd	%xmm2, %xmm2
	pxor	%xmm2, %xmm6
	pmovzxbd	%xmm6, %xmm1
	pand	%xmm7, %xmm1
	paddd	%xmm4, %xmm1
	pmaxub	%xmm8, %xmm5
	pcmpeqb	%xmm8, %xmm5
	pxor	%xmm2, %xmm5
	pmovzxbd	%xmm5, %xmm2
	pand	%xmm7, %xmm2
	paddd	%xmm3, %xmm2
	addq	$8, %r8
	cmpq	%r8, %rsi
	jne	.LBBa52ca417_701
	paddd	%xmm1, %xmm2
	pshufd	$238, %xmm2, %xmm0
	paddd	%xmm2, %xmm0
	pshufd	$85, %xmm0, %xmm1
	paddd	%xmm0, %xmm1
	movd	%xmm1, %edi
	movq	%rdi, 288(%rsp)
	cmpl	%esi, %ecx
	je	.LBBa52ca417_705
.LBBa52ca417_703:
	addq	272(%rsp), %rax
.LBBa52ca417_704:
	movzbl	(%rax,%rsi), %edi
	movl	%edi, %r8d
	andb	$15, %r8b
	xorl	%r9d, %r9d
	cmpb	$16, %dil
	setb	%r9b
	cmpb	$1, %r8b
	movq	288(%rsp), %rdi
	adcl	%r9d, %edi
	movq	%rdi, 288(%rsp)
	incq	%rsi
	cmpq	%rsi, %rcx
	jne	.LBBa52ca417_704
.LBBa52ca417_705:
	movq	288(%rsp), %rax
	addl	%edx, %eax
	movq	%rax, 288(%rsp)
	movq	256(%rsp), %rbx
	movb	$1, %r12b
	xorl	%ebp, %ebp
	movl	%r13d, %eax
	movq	%rax, 72(%rsp)
	movq	8(%rsp), %rdi
	callq	rattle_dealloc@PLT
	cmpb	$1, 336(%rsp)
	je	.LBBa52ca417_689
	jmp	.LBBa52ca417_692
.Lfunc_enda52ca417:
	.size	hll_estimator_fields.filter.with_fields.5da326502419fe7c, .Lfunc_enda52ca417-hll_estimator_fields.filter.with_fields.5da326502419fe7c
	.section	.rodata.hll_estimator_fields.filter.with_fields.5da326502419fe7c,"a",@progbits
	.p2align	2, 0x0
.LJTIa52ca417_0:
	.long	.LBBa52ca417_7-.LJTIa52ca417_0
	.long	.LBBa52ca417_10-.LJTIa52ca417_0
	.long	.LBBa52ca417_8-.LJTIa52ca417_0
	.long	.LBBa52ca417_9-.LJTIa52ca417_0
.LJTIa52ca417_1:
	.long	.LBBa52ca417_46-.LJTIa52ca417_1
	.long	.LBBa52ca417_46-.LJTIa52ca417_1
	.long	.LBBa52ca417_66-.LJTIa52ca417_1
	.long	.LBBa52ca417_76-.LJTIa52ca417_1
	.long	.LBBa52ca417_64-.LJTIa52ca417_1
.LJTIa52ca417_2:
	.long	.LBBa52ca417_168-.LJTIa52ca417_2
	.long	.LBBa52ca417_168-.LJTIa52ca417_2
	.long	.LBBa52ca417_170-.LJTIa52ca417_2
	.long	.LBBa52ca417_171-.LJTIa52ca417_2
	.long	.LBBa52ca417_125-.LJTIa52ca417_2
.LJTIa52ca417_3:
	.long	.LBBa52ca417_169-.LJTIa52ca417_3
	.long	.LBBa52ca417_172-.LJTIa52ca417_3
	.long	.LBBa52ca417_175-.LJTIa52ca417_3
	.long	.LBBa52ca417_177-.LJTIa52ca417_3
	.long	.LBBa52ca417_173-.LJTIa52ca417_3
.LJTIa52ca417_4:
	.long	.LBBa52ca417_431-.LJTIa52ca417_4
	.long	.LBBa52ca417_431-.LJTIa52ca417_4
	.long	.LBBa52ca417_486-.LJTIa52ca417_4
	.long	.LBBa52ca417_482-.LJTIa52ca417_4
	.long	.LBBa52ca417_482-.LJTIa52ca417_4

	.section	.text.hll_sketch.raw_coupons.RawCoupons.differ,"ax",@progbits
	.p2align	4
	.type	hll_sketch.raw_coupons.RawCoupons.differ,@function
hll_sketch.raw_coupons.RawCoupons.differ:
	pushq	%rbx
	subq	$1024, %rsp
	movq	%rdi, %rbx
	movq	%rsp, %rdi
	movl	$1024, %edx
	xorl	%esi, %esi
	callq	memset@PLT
	movq	8(%rbx), %rcx
	movq	16(%rbx), %rdx
	testq	%rdx, %rdx
	sete	%al
	cmpq	$4, %rcx
	setb	%sil
	orb	%al, %sil
	jne	.LBB8d0b1b5a_4
	movq	(%rbx), %rsi
	xorl	%edi, %edi
	movq	%rsi, %r8
	.p2align	4
.LBB8d0b1b5a_2:
	movl	(%r8), %eax
	cmpq	$67108863, %rax
	jbe	.LBB8d0b1b5a_3
	movl	%eax, %r9d
	andl	$1023, %r9d
	testq	%rdi, %rdi
	je	.LBB8d0b1b5a_15
	cmpb	$0, (%rsp,%r9)
	je	.LBB8d0b1b5a_15
	cmpq	$8, %rdi
	jae	.LBB8d0b1b5a_10
	xorl	%r11d, %r11d
	xorl	%r10d, %r10d
	jmp	.LBB8d0b1b5a_9
	.p2align	4
.LBB8d0b1b5a_10:
	movq	%rdi, %r11
	andq	$-8, %r11
	movabsq	$9223372036854775800, %r10
	andq	%rdi, %r10
	movd	%eax, %xmm0
	pshufd	$0, %xmm0, %xmm1
	pxor	%xmm0, %xmm0
	xorl	%ebx, %ebx
	pxor	%xmm2, %xmm2
	.p2align	4
.LBB8d0b1b5a_11:
	movdqu	(%rsi,%rbx,4), %xmm3
	movdqu	16(%rsi,%rbx,4), %xmm4
	pcmpeqd	%xmm1, %xmm3
	por	%xmm3, %xmm2
	pcmpeqd	%xmm1, %xmm4
	por	%xmm4, %xmm0
	addq	$8, %rbx
	cmpq	%rbx, %r11
	jne	.LBB8d0b1b5a_11
	por	%xmm2, %xmm0
	pslld	$31, %xmm0
	movmskps	%xmm0, %r11d
	testl	%r11d, %r11d
	setne	%r11b
	jmp	.LBB8d0b1b5a_13
	.p2align	4
.LBB8d0b1b5a_9:
	cmpl	%eax, (%rsi,%r10,4)
	sete	%bl
	orb	%bl, %r11b
	incq	%r10
.LBB8d0b1b5a_13:
	cmpq	%r10, %rdi
	jne	.LBB8d0b1b5a_9
	testb	$1, %r11b
	jne	.LBB8d0b1b5a_3
.LBB8d0b1b5a_15:
	movb	$1, (%rsp,%r9)
	incq	%rdi
	cmpq	%rdx, %rdi
	setae	%al
	jae	.LBB8d0b1b5a_4
	addq	$4, %r8
	addq	$-4, %rcx
	cmpq	$4, %rcx
	jae	.LBB8d0b1b5a_2
.LBB8d0b1b5a_4:
	addq	$1024, %rsp
	popq	%rbx
	retq
.LBB8d0b1b5a_3:
	xorl	%eax, %eax
	addq	$1024, %rsp
	popq	%rbx
	retq
.Lfunc_end8d0b1b5a:
	.size	hll_sketch.raw_coupons.RawCoupons.differ, .Lfunc_end8d0b1b5a-hll_sketch.raw_coupons.RawCoupons.differ

	.section	.text.hll_coupons.hash_set.read_by_order.5da326502419fe7c,"ax",@progbits
	.p2align	4
	.type	hll_coupons.hash_set.read_by_order.5da326502419fe7c,@function
hll_coupons.hash_set.read_by_order.5da326502419fe7c:
	pushq	%rbp
	pushq	%r15
	pushq	%r14
	pushq	%r13
	pushq	%r12
	pushq	%rbx
	subq	$120, %rsp
	movl	%r8d, %r15d
	movq	%rcx, %r12
	movq	%rdx, %r13
	movq	%rsi, 8(%rsp)
	movq	%rdi, %rbx
	xorps	%xmm0, %xmm0
	movaps	%xmm0, 96(%rsp)
	movaps	%xmm0, 80(%rsp)
	movaps	%xmm0, 64(%rsp)
	movq	$0, 112(%rsp)
	movq	(%rdi), %rax
	movq	%rax, 56(%rsp)
	movq	24(%rdi), %rdi
	cmpb	$0, 16(%rbx)
	movq	40(%rbx), %rax
	movq	$3, (%rbx)
	movups	%xmm0, 8(%rbx)
	movups	%xmm0, 24(%rbx)
	movups	%xmm0, 36(%rbx)
	je	.LBB7d0aa848_3
	testq	%rax, %rax
	je	.LBB7d0aa848_3
	callq	rattle_dealloc@PLT
	xorps	%xmm0, %xmm0
.LBB7d0aa848_3:
	movaps	%xmm0, 16(%rsp)
	movq	$0, 32(%rsp)
	testq	%r12, %r12
	je	.LBB7d0aa848_14
	movq	%r12, %rax
	shrq	$61, %rax
	movb	$12, %bpl
	jne	.LBB7d0aa848_72
	leaq	(,%r12,4), %rdi
	movl	$4, %esi
	callq	rattle_alloc@PLT
	testb	$1, %al
	je	.LBB7d0aa848_72
	movq	%rdx, 16(%rsp)
	movq	$0, 24(%rsp)
	movq	%r12, 32(%rsp)
	testb	%r15b, %r15b
	je	.LBB7d0aa848_32
	xorl	%r15d, %r15d
	xorl	%ebp, %ebp
	movq	8(%rsp), %rax
	.p2align	4
.LBB7d0aa848_8:
	subq	$4, %r13
	jb	.LBB7d0aa848_43
	movl	(%rax,%rbp,4), %r14d
	cmpl	$67108864, %r14d
	jb	.LBB7d0aa848_47
	cmpq	%r15, 32(%rsp)
	je	.LBB7d0aa848_12
.LBB7d0aa848_11:
	movl	%r14d, (%rdx,%r15,4)
	incq	%r15
	movq	%r15, 24(%rsp)
	incq	%rbp
	cmpq	%rbp, %r12
	jne	.LBB7d0aa848_8
	jmp	.LBB7d0aa848_45
.LBB7d0aa848_12:
	leaq	16(%rsp), %rdi
	movl	$1, %esi
	callq	std_alloc.vec.Vec.grow_amortized.11231e1ee52b7a7f
	testb	%al, %al
	je	.LBB7d0aa848_41
	movq	16(%rsp), %rdx
	movq	24(%rsp), %r15
	movq	8(%rsp), %rax
	jmp	.LBB7d0aa848_11
.LBB7d0aa848_14:
	movq	32(%rsp), %r14
	leaq	52(%rsp), %r12
	xorl	%r15d, %r15d
.LBB7d0aa848_15:
	movq	56(%rsp), %r13
.LBB7d0aa848_16:
	xorl	%ecx, %ecx
	movl	$0, %edx
	movl	$0, %eax
	movl	$0, %ebp
	cmpq	$3, %r13
	jne	.LBB7d0aa848_22
.LBB7d0aa848_17:
	movq	%r13, 64(%rsp)
	movq	$0, 72(%rsp)
	movl	%ecx, 80(%rsp)
	movl	$0, 84(%rsp)
	movq	%rdx, 88(%rsp)
	movq	%rax, 96(%rsp)
	movq	%rbp, 104(%rsp)
	movl	$0, 112(%rsp)
	leaq	64(%rsp), %rdi
	xorl	%esi, %esi
	movq	%r12, %rdx
	movq	%r15, %rcx
	callq	hll_coupons.filling.put_by_cycles.5da326502419fe7c
	testb	%al, %al
	je	.LBB7d0aa848_26
	movl	%edx, %ebp
	cmpb	$0, 80(%rsp)
	je	.LBB7d0aa848_21
	cmpq	$0, 104(%rsp)
	je	.LBB7d0aa848_21
	movq	88(%rsp), %rdi
	callq	rattle_dealloc@PLT
.LBB7d0aa848_21:
	movb	$1, %al
	testq	%r14, %r14
	jne	.LBB7d0aa848_70
	jmp	.LBB7d0aa848_73
.LBB7d0aa848_22:
	movq	%r14, 8(%rsp)
	movl	$1, %ebp
	movl	%r13d, %ecx
	shlq	%cl, %rbp
	cmpq	$60, %r13
	ja	.LBB7d0aa848_69
	movl	$4, %r14d
	movl	%r13d, %ecx
	shlq	%cl, %r14
	movl	$4, %esi
	movq	%r14, %rdi
	callq	rattle_alloc@PLT
	testb	$1, %al
	je	.LBB7d0aa848_69
	testq	%r13, %r13
	je	.LBB7d0aa848_54
	addq	$-4, %r14
	movq	%rdx, %rdi
	xorl	%esi, %esi
	movq	%rdx, %r13
	movq	%r14, %rdx
	callq	memset@PLT
	movq	%r13, %rdx
	movq	56(%rsp), %r13
	leaq	-1(%rbp), %rax
	jmp	.LBB7d0aa848_55
.LBB7d0aa848_26:
	leaq	20(%rbx), %rcx
	leaq	84(%rsp), %rdx
	movzbl	80(%rsp), %esi
	movq	24(%rbx), %rdi
	movq	40(%rbx), %rax
	movaps	64(%rsp), %xmm0
	movups	%xmm0, (%rbx)
	cmpb	$0, 16(%rbx)
	movl	%esi, 16(%rbx)
	movups	(%rdx), %xmm0
	movups	16(%rdx), %xmm1
	movups	%xmm1, 16(%rcx)
	movups	%xmm0, (%rcx)
	je	.LBB7d0aa848_29
	testq	%rax, %rax
	je	.LBB7d0aa848_29
	callq	rattle_dealloc@PLT
.LBB7d0aa848_29:
	testq	%r14, %r14
	je	.LBB7d0aa848_31
	movq	%r12, %rdi
	callq	rattle_dealloc@PLT
.LBB7d0aa848_31:
	xorl	%ebp, %ebp
	xorl	%eax, %eax
	jmp	.LBB7d0aa848_73
.LBB7d0aa848_32:
	xorl	%r15d, %r15d
	xorl	%ebp, %ebp
	movq	8(%rsp), %rax
	jmp	.LBB7d0aa848_36
.LBB7d0aa848_33:
	movq	16(%rsp), %rdx
	movq	24(%rsp), %r15
	movq	8(%rsp), %rax
	.p2align	4
.LBB7d0aa848_34:
	movl	%r14d, (%rdx,%r15,4)
	incq	%r15
	movq	%r15, 24(%rsp)
.LBB7d0aa848_35:
	incq	%rbp
	cmpq	%rbp, %r12
	je	.LBB7d0aa848_45
.LBB7d0aa848_36:
	subq	$4, %r13
	jb	.LBB7d0aa848_43
	movl	(%rax,%rbp,4), %r14d
	testl	%r14d, %r14d
	je	.LBB7d0aa848_35
	cmpl	$67108863, %r14d
	jbe	.LBB7d0aa848_47
	cmpq	%r15, 32(%rsp)
	jne	.LBB7d0aa848_34
	leaq	16(%rsp), %rdi
	movl	$1, %esi
	callq	std_alloc.vec.Vec.grow_amortized.11231e1ee52b7a7f
	testb	%al, %al
	jne	.LBB7d0aa848_33
.LBB7d0aa848_41:
	cmpq	$0, 32(%rsp)
	je	.LBB7d0aa848_80
	movq	16(%rsp), %rdi
	callq	rattle_dealloc@PLT
	movb	$12, %bpl
	jmp	.LBB7d0aa848_72
.LBB7d0aa848_43:
	cmpq	$0, 32(%rsp)
	je	.LBB7d0aa848_53
	movq	16(%rsp), %rdi
	callq	rattle_dealloc@PLT
	xorl	%ebp, %ebp
	jmp	.LBB7d0aa848_72
.LBB7d0aa848_45:
	movq	16(%rsp), %r12
	movq	32(%rsp), %r14
	cmpq	$2, %r15
	jb	.LBB7d0aa848_15
	movq	%r14, 8(%rsp)
	movabsq	$2305843009213693952, %rdx
	movl	$1, %eax
	movq	56(%rsp), %r13
	.p2align	4
.LBB7d0aa848_50:
	movl	-4(%r12,%rax,4), %ecx
	cmpl	(%r12,%rax,4), %ecx
	jae	.LBB7d0aa848_56
	incq	%rax
	cmpq	%rax, %r15
	jne	.LBB7d0aa848_50
.LBB7d0aa848_52:
	movq	8(%rsp), %r14
	jmp	.LBB7d0aa848_16
.LBB7d0aa848_47:
	movb	$9, %bpl
	cmpq	$0, 32(%rsp)
	je	.LBB7d0aa848_72
	movq	16(%rsp), %rdi
	jmp	.LBB7d0aa848_71
.LBB7d0aa848_53:
	xorl	%ebp, %ebp
	jmp	.LBB7d0aa848_72
.LBB7d0aa848_54:
	xorl	%eax, %eax
.LBB7d0aa848_55:
	movl	$0, (%rdx,%rax,4)
	incq	%rax
	movl	$1, %ecx
	movq	8(%rsp), %r14
	jmp	.LBB7d0aa848_17
.LBB7d0aa848_56:
	cmpq	%rdx, %r15
	jae	.LBB7d0aa848_69
	leaq	(,%r15,4), %rbp
	movl	$4, %esi
	movq	%rbp, %rdi
	callq	rattle_alloc@PLT
	movq	%rdx, %r14
	movabsq	$2305843009213693952, %rdx
	testb	$1, %al
	je	.LBB7d0aa848_69
	movq	%r14, %rax
	subq	%r12, %rax
	cmpq	%rbp, %rax
	jae	.LBB7d0aa848_74
	xorl	%eax, %eax
	cmpq	$8, %r15
	jb	.LBB7d0aa848_64
	movq	%r14, %rcx
	subq	%r12, %rcx
	cmpq	$32, %rcx
	jb	.LBB7d0aa848_64
	addq	$-8, %rdx
	movq	%rdx, %rax
	andq	%r15, %rax
	movabsq	$9223372036854775776, %rcx
	andq	%rcx, %rbp
	xorl	%ecx, %ecx
.LBB7d0aa848_62:
	movups	(%r12,%rcx), %xmm0
	movups	16(%r12,%rcx), %xmm1
	movups	%xmm0, (%r14,%rcx)
	movups	%xmm1, 16(%r14,%rcx)
	addq	$32, %rcx
	cmpq	%rcx, %rbp
	jne	.LBB7d0aa848_62
	cmpq	%rax, %r15
	je	.LBB7d0aa848_75
.LBB7d0aa848_64:
	movq	%r15, %rdx
	movq	%rax, %rcx
	andq	$3, %rdx
	je	.LBB7d0aa848_67
	movq	%rax, %rcx
.LBB7d0aa848_66:
	movl	(%r12,%rcx,4), %esi
	movl	%esi, (%r14,%rcx,4)
	incq	%rcx
	decq	%rdx
	jne	.LBB7d0aa848_66
.LBB7d0aa848_67:
	subq	%r15, %rax
	cmpq	$-4, %rax
	ja	.LBB7d0aa848_75
.LBB7d0aa848_68:
	movl	(%r12,%rcx,4), %eax
	movl	%eax, (%r14,%rcx,4)
	movl	4(%r12,%rcx,4), %eax
	movl	%eax, 4(%r14,%rcx,4)
	movl	8(%r12,%rcx,4), %eax
	movl	%eax, 8(%r14,%rcx,4)
	movl	12(%r12,%rcx,4), %eax
	movl	%eax, 12(%r14,%rcx,4)
	addq	$4, %rcx
	cmpq	%rcx, %r15
	jne	.LBB7d0aa848_68
	jmp	.LBB7d0aa848_75
.LBB7d0aa848_69:
	movb	$1, %al
	movb	$12, %bpl
	cmpq	$0, 8(%rsp)
	je	.LBB7d0aa848_73
.LBB7d0aa848_70:
	movq	%r12, %rdi
.LBB7d0aa848_71:
	callq	rattle_dealloc@PLT
.LBB7d0aa848_72:
	movb	$1, %al
.LBB7d0aa848_73:
	movl	%ebp, %edx
	addq	$120, %rsp
	popq	%rbx
	popq	%r12
	popq	%r13
	popq	%r14
	popq	%r15
	popq	%rbp
	retq
.LBB7d0aa848_74:
	movq	%r14, %rdi
	movq	%r12, %rsi
	movq	%rbp, %rdx
	callq	memmove@PLT
.LBB7d0aa848_75:
	movq	%r14, %rdi
	movq	%r15, %rsi
	callq	std_alloc.vec.Vec.sort_unstable.b520de54a9121e34
	movl	$1, %eax
.LBB7d0aa848_76:
	movl	-4(%r14,%rax,4), %ecx
	cmpl	(%r14,%rax,4), %ecx
	jae	.LBB7d0aa848_79
	incq	%rax
	cmpq	%rax, %r15
	jne	.LBB7d0aa848_76
	movq	%r14, %rdi
	callq	rattle_dealloc@PLT
	jmp	.LBB7d0aa848_52
.LBB7d0aa848_79:
	movq	%r14, %rdi
	callq	rattle_dealloc@PLT
	movb	$1, %al
	movb	$9, %bpl
	cmpq	$0, 8(%rsp)
	jne	.LBB7d0aa848_70
	jmp	.LBB7d0aa848_73
.LBB7d0aa848_80:
	movb	$12, %bpl
	jmp	.LBB7d0aa848_72
.Lfunc_end7d0aa848:
	.size	hll_coupons.hash_set.read_by_order.5da326502419fe7c, .Lfunc_end7d0aa848-hll_coupons.hash_set.read_by_order.5da326502419fe7c

	.section	.text.unlikely.std_alloc.vec.Vec.grow_amortized.11231e1ee52b7a7f,"ax",@progbits
	.p2align	4
	.type	std_alloc.vec.Vec.grow_amortized.11231e1ee52b7a7f,@function
std_alloc.vec.Vec.grow_amortized.11231e1ee52b7a7f:
	movq	%rsi, %rax
	movq	8(%rdi), %rsi
	addq	%rsi, %rax
	jae	.LBB3250d64f_2
	xorl	%eax, %eax
	retq
.LBB3250d64f_2:
	pushq	%r14
	pushq	%rbx
	pushq	%rax
	movq	16(%rdi), %rcx
	cmpq	$5, %rax
	movl	$4, %ebx
	cmovaeq	%rax, %rbx
	movq	%rcx, %rdx
	shrq	$62, %rdx
	leaq	(%rcx,%rcx), %rax
	cmpq	%rax, %rbx
	cmovaq	%rbx, %rax
	testq	%rdx, %rdx
	cmoveq	%rax, %rbx
	movq	%rbx, %rdx
	shrq	$61, %rdx
	jne	.LBB3250d64f_6
	testq	%rcx, %rcx
	je	.LBB3250d64f_8
	movq	%rdi, %r14
	movq	(%rdi), %rdi
	shlq	$2, %rsi
	leaq	(,%rbx,4), %rdx
	movl	$4, %ecx
	callq	rattle_realloc@PLT
	testb	$1, %al
	je	.LBB3250d64f_6
.LBB3250d64f_9:
	movq	%rdx, (%r14)
	movq	%rbx, 16(%r14)
	movb	$1, %al
	addq	$8, %rsp
	popq	%rbx
	popq	%r14
	retq
.LBB3250d64f_8:
	movq	%rdi, %r14
	shlq	$2, %rax
	movl	$4, %esi
	movq	%rax, %rdi
	callq	rattle_alloc@PLT
	testb	$1, %al
	jne	.LBB3250d64f_9
.LBB3250d64f_6:
	xorl	%eax, %eax
	addq	$8, %rsp
	popq	%rbx
	popq	%r14
	retq
.Lfunc_end3250d64f:
	.size	std_alloc.vec.Vec.grow_amortized.11231e1ee52b7a7f, .Lfunc_end3250d64f-std_alloc.vec.Vec.grow_amortized.11231e1ee52b7a7f

	.section	.text.std_alloc.vec.Vec.sort_unstable.b520de54a9121e34,"ax",@progbits
	.p2align	4
	.type	std_alloc.vec.Vec.sort_unstable.b520de54a9121e34,@function
std_alloc.vec.Vec.sort_unstable.b520de54a9121e34:
	cmpq	$20, %rsi
	ja	.LBBd8dcd4fb_12
	cmpq	$2, %rsi
	jb	.LBBd8dcd4fb_20
	movl	$1, %eax
	jmp	.LBBd8dcd4fb_3
.LBBd8dcd4fb_5:
	xorl	%edx, %edx
.LBBd8dcd4fb_10:
	movl	%ecx, (%rdi,%rdx)
.LBBd8dcd4fb_11:
	incq	%rax
	cmpq	%rsi, %rax
	je	.LBBd8dcd4fb_20
.LBBd8dcd4fb_3:
	movl	-4(%rdi,%rax,4), %r8d
	movl	(%rdi,%rax,4), %ecx
	cmpl	%r8d, %ecx
	jae	.LBBd8dcd4fb_11
	movq	%rax, %rdx
	movl	%r8d, (%rdi,%rax,4)
	decq	%rdx
	je	.LBBd8dcd4fb_5
	.p2align	4
.LBBd8dcd4fb_6:
	movl	-4(%rdi,%rdx,4), %r8d
	cmpl	%r8d, %ecx
	jae	.LBBd8dcd4fb_9
	movl	%r8d, (%rdi,%rdx,4)
	decq	%rdx
	jne	.LBBd8dcd4fb_6
	xorl	%edx, %edx
.LBBd8dcd4fb_9:
	shlq	$2, %rdx
	jmp	.LBBd8dcd4fb_10
.LBBd8dcd4fb_12:
	movl	(%rdi), %eax
	movl	4(%rdi), %ecx
	movl	$2, %edx
	cmpl	%eax, %ecx
	jae	.LBBd8dcd4fb_13
	.p2align	4
.LBBd8dcd4fb_15:
	movl	(%rdi,%rdx,4), %r8d
	cmpl	-4(%rdi,%rdx,4), %r8d
	jae	.LBBd8dcd4fb_18
	incq	%rdx
	cmpq	%rdx, %rsi
	jne	.LBBd8dcd4fb_15
	jmp	.LBBd8dcd4fb_17
	.p2align	4
.LBBd8dcd4fb_13:
	movl	(%rdi,%rdx,4), %r8d
	cmpl	-4(%rdi,%rdx,4), %r8d
	jb	.LBBd8dcd4fb_18
	incq	%rdx
	cmpq	%rdx, %rsi
	jne	.LBBd8dcd4fb_13
	jmp	.LBBd8dcd4fb_20
.LBBd8dcd4fb_18:
	cmpq	%rsi, %rdx
	jae	.LBBd8dcd4fb_19
	bsrq	%rsi, %rcx
	xorl	$63, %ecx
	addl	%ecx, %ecx
	xorl	$126, %ecx
	movq	%rsi, %rdx
	xorl	%esi, %esi
	jmp	core.slice.sort.unstable.quicksort.190f92464ae8a1e1
.LBBd8dcd4fb_19:
	cmpl	%eax, %ecx
	jae	.LBBd8dcd4fb_20
.LBBd8dcd4fb_17:
	movq	%rsi, %rdx
	shrq	%rdx
	subq	%rdx, %rsi
	leaq	(%rdi,%rsi,4), %rsi
	jmp	core.slice.edits.mirror._27_hll_coupons.coupon.Coupon
.LBBd8dcd4fb_20:
	retq
.Lfunc_endd8dcd4fb:
	.size	std_alloc.vec.Vec.sort_unstable.b520de54a9121e34, .Lfunc_endd8dcd4fb-std_alloc.vec.Vec.sort_unstable.b520de54a9121e34

	.section	.text.core.slice.sort.unstable.quicksort.190f92464ae8a1e1,"ax",@progbits
	.p2align	4
	.type	core.slice.sort.unstable.quicksort.190f92464ae8a1e1,@function
core.slice.sort.unstable.quicksort.190f92464ae8a1e1:
	pushq	%rbp
	pushq	%r15
	pushq	%r14
	pushq	%r13
	pushq	%r12
	pushq	%rbx
	subq	$40, %rsp
	movq	%rdx, %rbx
	movq	%rdi, %r14
	movq	%rdx, %r12
	subq	%rsi, %r12
	cmpq	$17, %r12
	jb	.LBB315b4148_72
	movl	%ecx, %ebp
	movq	%rsi, %r15
	movq	%rbx, 8(%rsp)
	jmp	.LBB315b4148_2
	.p2align	4
.LBB315b4148_49:
	xorl	%ecx, %ecx
.LBB315b4148_70:
	movl	%eax, (%rsi,%rcx)
	addq	%r15, %rdx
	movq	%r14, %rdi
	movq	%r15, %rsi
	movl	%ebp, %ecx
	callq	core.slice.sort.unstable.quicksort.190f92464ae8a1e1
.LBB315b4148_71:
	addq	%r13, %r15
	movq	%rbx, %r12
	subq	%r15, %r12
	cmpq	$16, %r12
	jbe	.LBB315b4148_72
.LBB315b4148_2:
	testl	%ebp, %ebp
	je	.LBB315b4148_3
	movq	%r12, %r8
	shrq	$3, %r8
	movq	%r12, %rcx
	andq	$-8, %rcx
	subq	%r8, %rcx
	addq	%r15, %rcx
	leaq	(%r15,%r8,4), %rax
	cmpq	$63, %r12
	ja	.LBB315b4148_31
	movl	(%r14,%r15,4), %edx
	movl	(%r14,%rax,4), %esi
	cmpl	%esi, %edx
	setb	%dil
	movl	(%r14,%rcx,4), %r8d
	cmpl	%r8d, %edx
	setb	%dl
	xorb	%dil, %dl
	cmpl	%r8d, %esi
	setb	%sil
	xorb	%dil, %sil
	cmovneq	%rcx, %rax
	testb	%dl, %dl
	cmovneq	%r15, %rax
	decl	%ebp
	testq	%r15, %r15
	je	.LBB315b4148_33
.LBB315b4148_50:
	leaq	(,%r15,4), %rcx
	movl	-4(%r14,%r15,4), %edx
	cmpl	(%r14,%rax,4), %edx
	jb	.LBB315b4148_34
	leaq	(%r14,%r15,4), %rdx
	subq	%r15, %rax
	je	.LBB315b4148_53
	movl	(%rdx), %esi
	movl	(%rdx,%rax,4), %edi
	movl	%edi, (%rdx)
	movl	%esi, (%rdx,%rax,4)
.LBB315b4148_53:
	movl	(%rdx), %eax
	movl	$1, %r13d
	.p2align	4
.LBB315b4148_54:
	cmpl	(%rdx,%r13,4), %eax
	jb	.LBB315b4148_57
	incq	%r13
	cmpq	%r13, %r12
	jne	.LBB315b4148_54
	movq	%r12, %r13
.LBB315b4148_57:
	leaq	-1(%r12), %r8
	cmpq	%r8, %r13
	jae	.LBB315b4148_65
	leaq	1(%r13), %rdi
	movl	4(%rdx,%r13,4), %esi
	cmpq	%r8, %rdi
	jae	.LBB315b4148_64
	movl	%r12d, %r8d
	subl	%r13d, %r8d
	movq	%r13, %r9
	testb	$1, %r8b
	je	.LBB315b4148_61
	leaq	2(%r13), %rdi
	movl	(%rdx,%r13,4), %r8d
	movl	8(%rdx,%r13,4), %r9d
	cmpl	%r9d, %eax
	movl	%r8d, 4(%rdx,%r13,4)
	movl	%r9d, (%rdx,%r13,4)
	movq	%r13, %r9
	sbbq	$-1, %r9
.LBB315b4148_61:
	leaq	-3(%r12), %r8
	cmpq	%r13, %r8
	movq	%r9, %r13
	je	.LBB315b4148_64
	movq	%r12, %r8
	subq	%rdi, %r8
	leaq	(%rcx,%rdi,4), %rcx
	addq	%r14, %rcx
	movl	$1, %edi
	movq	%r9, %r13
	.p2align	4
.LBB315b4148_63:
	movl	(%rcx,%rdi,4), %r9d
	cmpl	%r9d, %eax
	movl	(%rdx,%r13,4), %r10d
	movl	%r10d, -4(%rcx,%rdi,4)
	movl	%r9d, (%rdx,%r13,4)
	sbbq	$-1, %r13
	movl	4(%rcx,%rdi,4), %r9d
	cmpl	%r9d, %eax
	movl	(%rdx,%r13,4), %r10d
	movl	%r10d, (%rcx,%rdi,4)
	movl	%r9d, (%rdx,%r13,4)
	sbbq	$-1, %r13
	addq	$2, %rdi
	cmpq	%rdi, %r8
	jne	.LBB315b4148_63
.LBB315b4148_64:
	cmpl	%esi, %eax
	movl	(%rdx,%r13,4), %ecx
	movl	%ecx, -4(%rdx,%r12,4)
	movl	%esi, (%rdx,%r13,4)
	sbbq	$-1, %r13
.LBB315b4148_65:
	movq	%r13, %rcx
	decq	%rcx
	je	.LBB315b4148_66
	movl	(%rdx,%rcx,4), %esi
	shlq	$2, %rcx
	movl	%esi, (%rdx)
	movl	%eax, (%rdx,%rcx)
	jmp	.LBB315b4148_71
	.p2align	4
.LBB315b4148_31:
	movq	%r14, %rdi
	movq	%r15, %rsi
	movq	%rax, %rdx
	callq	core.slice.sort.pivot.median_of_medians.190f92464ae8a1e1
	decl	%ebp
	testq	%r15, %r15
	jne	.LBB315b4148_50
.LBB315b4148_33:
	xorl	%ecx, %ecx
.LBB315b4148_34:
	leaq	(%r14,%rcx), %rsi
	subq	%r15, %rax
	je	.LBB315b4148_36
	movl	(%rsi), %edx
	movl	(%rsi,%rax,4), %edi
	movl	%edi, (%rsi)
	movl	%edx, (%rsi,%rax,4)
.LBB315b4148_36:
	movl	(%rsi), %eax
	movl	$1, %r13d
	.p2align	4
.LBB315b4148_37:
	cmpl	%eax, (%rsi,%r13,4)
	jae	.LBB315b4148_40
	incq	%r13
	cmpq	%r13, %r12
	jne	.LBB315b4148_37
	movq	%r12, %r13
.LBB315b4148_40:
	leaq	-1(%r12), %r8
	cmpq	%r8, %r13
	jae	.LBB315b4148_48
	leaq	1(%r13), %rdi
	movl	4(%rsi,%r13,4), %edx
	cmpq	%r8, %rdi
	jae	.LBB315b4148_47
	movl	%r12d, %r8d
	subl	%r13d, %r8d
	movq	%r13, %r9
	testb	$1, %r8b
	je	.LBB315b4148_44
	leaq	2(%r13), %rdi
	movl	(%rsi,%r13,4), %r8d
	movl	8(%rsi,%r13,4), %r9d
	cmpl	%eax, %r9d
	movl	%r8d, 4(%rsi,%r13,4)
	movl	%r9d, (%rsi,%r13,4)
	movq	%r13, %r9
	adcq	$0, %r9
.LBB315b4148_44:
	leaq	-3(%r12), %r8
	cmpq	%r13, %r8
	movq	%r9, %r13
	je	.LBB315b4148_47
	movq	%r12, %r8
	subq	%rdi, %r8
	leaq	(%rcx,%rdi,4), %rcx
	addq	%r14, %rcx
	movl	$1, %edi
	movq	%r9, %r13
	.p2align	4
.LBB315b4148_46:
	movl	(%rcx,%rdi,4), %r9d
	xorl	%r10d, %r10d
	cmpl	%eax, %r9d
	setb	%r10b
	movl	(%rsi,%r13,4), %r11d
	movl	%r11d, -4(%rcx,%rdi,4)
	movl	%r9d, (%rsi,%r13,4)
	leaq	(%r10,%r13), %r9
	movl	4(%rcx,%rdi,4), %r11d
	cmpl	%eax, %r11d
	movl	(%rsi,%r9,4), %ebx
	movl	%ebx, (%rcx,%rdi,4)
	movl	%r11d, (%rsi,%r9,4)
	adcq	%r10, %r13
	addq	$2, %rdi
	cmpq	%rdi, %r8
	jne	.LBB315b4148_46
.LBB315b4148_47:
	cmpl	%eax, %edx
	movl	(%rsi,%r13,4), %ecx
	movl	%ecx, -4(%rsi,%r12,4)
	movl	%edx, (%rsi,%r13,4)
	adcq	$0, %r13
	movq	8(%rsp), %rbx
.LBB315b4148_48:
	movq	%r13, %rdx
	decq	%rdx
	je	.LBB315b4148_49
	leaq	(,%rdx,4), %rcx
	movl	(%rsi,%rdx,4), %edi
	movl	%edi, (%rsi)
	jmp	.LBB315b4148_70
.LBB315b4148_66:
	xorl	%ecx, %ecx
	movl	%eax, (%rdx,%rcx)
	jmp	.LBB315b4148_71
.LBB315b4148_72:
	cmpq	$2, %r12
	jb	.LBB315b4148_90
	xorl	%eax, %eax
	cmpq	$13, %r12
	setae	%al
	leaq	12(,%rax,4), %rax
	cmpq	$9, %r12
	movl	$8, %ecx
	cmovaeq	%rax, %rcx
	xorl	%edx, %edx
	movq	%rbx, %rax
	subq	%rcx, %rax
	cmovaeq	%rax, %rdx
	leaq	(%r14,%rdx,4), %rax
	subq	%rdx, %rbx
	cmpq	$16, %rbx
	jb	.LBB315b4148_75
	movl	52(%rax), %ecx
	movl	(%rax), %r14d
	movl	4(%rax), %edx
	cmpl	%r14d, %ecx
	movl	%r14d, %esi
	cmoval	%ecx, %esi
	movl	%esi, 8(%rsp)
	cmovbl	%ecx, %r14d
	movl	48(%rax), %ecx
	cmpl	%edx, %ecx
	movl	%edx, %esi
	cmoval	%ecx, %esi
	movl	%esi, 32(%rsp)
	cmovbl	%ecx, %edx
	movl	8(%rax), %r11d
	movl	60(%rax), %ecx
	cmpl	%r11d, %ecx
	movl	%r11d, %esi
	cmoval	%ecx, %esi
	movl	%esi, 28(%rsp)
	cmovbl	%ecx, %r11d
	movl	12(%rax), %r15d
	movl	56(%rax), %esi
	cmpl	%r15d, %esi
	movl	%r15d, %ecx
	cmoval	%esi, %ecx
	movl	%ecx, 4(%rsp)
	cmovbl	%esi, %r15d
	movl	16(%rax), %ecx
	movl	32(%rax), %esi
	cmpl	%ecx, %esi
	movl	%ecx, %r12d
	cmoval	%esi, %r12d
	cmovbl	%esi, %ecx
	movl	20(%rax), %r10d
	movl	24(%rax), %esi
	cmpl	%r10d, %esi
	movl	%r10d, %r8d
	cmoval	%esi, %r8d
	cmovbl	%esi, %r10d
	movl	28(%rax), %ebp
	movl	44(%rax), %esi
	cmpl	%ebp, %esi
	movl	%ebp, %r9d
	cmoval	%esi, %r9d
	cmovbl	%esi, %ebp
	movl	36(%rax), %r13d
	movl	40(%rax), %esi
	cmpl	%r13d, %esi
	movl	%r13d, %edi
	cmoval	%esi, %edi
	cmovbl	%esi, %r13d
	cmpl	%r14d, %r10d
	movl	%r14d, %esi
	cmoval	%r10d, %esi
	cmovael	%r14d, %r10d
	cmpl	%edx, %ebp
	movl	%edx, %r14d
	cmoval	%ebp, %r14d
	movl	%r14d, 24(%rsp)
	cmovael	%edx, %ebp
	cmpl	%r11d, %r13d
	movl	%r11d, %edx
	cmoval	%r13d, %edx
	cmovael	%r11d, %r13d
	cmpl	%r15d, %ecx
	movl	%r15d, %r14d
	cmoval	%ecx, %r14d
	cmovael	%r15d, %ecx
	movl	8(%rsp), %r11d
	cmpl	%r8d, %r11d
	movl	%r8d, %r15d
	cmoval	%r11d, %r15d
	movl	%r15d, 16(%rsp)
	cmovbl	%r11d, %r8d
	movl	4(%rsp), %r11d
	cmpl	%r12d, %r11d
	movl	%r12d, %r15d
	cmoval	%r11d, %r15d
	movl	%r15d, 20(%rsp)
	cmovbl	%r11d, %r12d
	movl	28(%rsp), %r11d
	cmpl	%edi, %r11d
	movl	%edi, %r15d
	cmoval	%r11d, %r15d
	movl	%r15d, 4(%rsp)
	cmovbl	%r11d, %edi
	movl	32(%rsp), %r11d
	cmpl	%r9d, %r11d
	movl	%r9d, %r15d
	cmoval	%r11d, %r15d
	movl	%r15d, 8(%rsp)
	cmovbl	%r11d, %r9d
	cmpl	%r10d, %ebp
	movl	%r10d, %r11d
	cmoval	%ebp, %r11d
	movl	%r11d, 36(%rsp)
	cmovael	%r10d, %ebp
	cmpl	%r13d, %ecx
	movl	%r13d, %r11d
	cmoval	%ecx, %r11d
	cmovael	%r13d, %ecx
	cmpl	%r14d, %esi
	movl	%r14d, %r10d
	cmoval	%esi, %r10d
	cmovbl	%esi, %r14d
	cmpl	%r8d, %r12d
	movl	%r8d, %esi
	cmoval	%r12d, %esi
	movl	%esi, 28(%rsp)
	cmovael	%r8d, %r12d
	movl	%r12d, %r13d
	movl	24(%rsp), %esi
	cmpl	%esi, %edx
	movl	%esi, %r15d
	cmoval	%edx, %r15d
	cmovael	%esi, %edx
	cmpl	%edi, %r9d
	movl	%edi, %r12d
	cmoval	%r9d, %r12d
	cmovael	%edi, %r9d
	movl	16(%rsp), %esi
	movl	8(%rsp), %edi
	cmpl	%edi, %esi
	movl	%edi, %r8d
	cmoval	%esi, %r8d
	movl	%r8d, 24(%rsp)
	cmovbl	%esi, %edi
	movl	%edi, 8(%rsp)
	movl	4(%rsp), %edi
	movl	20(%rsp), %esi
	cmpl	%esi, %edi
	movl	%esi, %r8d
	cmoval	%edi, %r8d
	cmovael	%esi, %edi
	cmpl	%ebp, %ecx
	movl	%ebp, %esi
	cmoval	%ecx, %esi
	movl	%esi, 4(%rsp)
	cmovael	%ebp, %ecx
	movl	%ecx, 32(%rsp)
	movl	36(%rsp), %esi
	cmpl	%esi, %r11d
	movl	%esi, %ecx
	cmoval	%r11d, %ecx
	cmovael	%esi, %r11d
	cmpl	%r14d, %r9d
	movl	%r14d, %esi
	cmoval	%r9d, %esi
	movl	%esi, 20(%rsp)
	cmovael	%r14d, %r9d
	cmpl	%r10d, %r12d
	movl	%r10d, %esi
	cmoval	%r12d, %esi
	movl	%esi, 16(%rsp)
	cmovael	%r10d, %r12d
	cmpl	%r13d, %edx
	movl	%r13d, %r10d
	cmoval	%edx, %r10d
	cmovael	%r13d, %edx
	movl	%edx, %ebp
	movl	28(%rsp), %edx
	cmpl	%edx, %r15d
	movl	%edx, %r13d
	cmoval	%r15d, %r13d
	cmovael	%edx, %r15d
	movl	%edi, %edx
	movl	8(%rsp), %esi
	cmpl	%esi, %edi
	movl	%esi, %edi
	cmoval	%edx, %edi
	cmovael	%esi, %edx
	movl	24(%rsp), %esi
	cmpl	%esi, %r8d
	movl	%esi, %r14d
	cmoval	%r8d, %r14d
	movl	%r14d, 28(%rsp)
	cmovael	%esi, %r8d
	movl	4(%rsp), %r14d
	cmpl	%r11d, %r14d
	movl	%r11d, %esi
	cmoval	%r14d, %esi
	cmovbl	%r14d, %r11d
	cmpl	%ecx, %edx
	movl	%ecx, %r14d
	cmoval	%edx, %r14d
	movl	%r14d, 24(%rsp)
	cmovael	%ecx, %edx
	movl	%edx, 4(%rsp)
	movl	%ebp, %ecx
	cmpl	%r9d, %ebp
	movl	%r9d, %ebp
	cmoval	%ecx, %ebp
	cmovael	%r9d, %ecx
	movl	%ecx, 8(%rsp)
	cmpl	%r12d, %r10d
	movl	%r12d, %ecx
	cmoval	%r10d, %ecx
	cmovael	%r12d, %r10d
	movl	20(%rsp), %edx
	cmpl	%r15d, %edx
	movl	%r15d, %r14d
	cmoval	%edx, %r14d
	cmovbl	%edx, %r15d
	movl	16(%rsp), %r9d
	cmpl	%r13d, %r9d
	movl	%r13d, %edx
	cmoval	%r9d, %edx
	cmovbl	%r9d, %r13d
	cmpl	%r8d, %edi
	movl	%r8d, %r9d
	cmoval	%edi, %r9d
	cmovbl	%edi, %r8d
	movl	8(%rsp), %r12d
	cmpl	%r11d, %r12d
	movl	%r11d, %edi
	cmoval	%r12d, %edi
	cmovael	%r11d, %r12d
	movl	%r12d, 8(%rsp)
	cmpl	%esi, %ebp
	movl	%esi, %r11d
	cmoval	%ebp, %r11d
	cmovael	%esi, %ebp
	cmpl	%r10d, %r15d
	movl	%r10d, %r12d
	cmoval	%r15d, %r12d
	cmovael	%r10d, %r15d
	cmpl	%ecx, %r14d
	movl	%ecx, %esi
	cmoval	%r14d, %esi
	movl	%esi, 20(%rsp)
	cmovael	%ecx, %r14d
	cmpl	%r13d, %r8d
	movl	%r13d, %ecx
	cmoval	%r8d, %ecx
	cmovael	%r13d, %r8d
	cmpl	%edx, %r9d
	movl	%edx, %esi
	cmoval	%r9d, %esi
	movl	%esi, 16(%rsp)
	cmovael	%edx, %r9d
	cmpl	%ebp, %edi
	movl	%ebp, %r13d
	cmoval	%edi, %r13d
	cmovbl	%edi, %ebp
	movl	4(%rsp), %edx
	cmpl	%edx, %r11d
	movl	%edx, %r10d
	cmoval	%r11d, %r10d
	cmovael	%edx, %r11d
	movl	24(%rsp), %edx
	cmpl	%r8d, %edx
	movl	%r8d, %edi
	cmoval	%edx, %edi
	cmovbl	%edx, %r8d
	cmpl	%r9d, %ecx
	movl	%r9d, %edx
	cmoval	%ecx, %edx
	movl	%edx, 4(%rsp)
	cmovbl	%ecx, %r9d
	cmpl	%r11d, %r15d
	movl	%r11d, %edx
	cmoval	%r15d, %edx
	movl	32(%rsp), %ecx
	movl	%ecx, (%rax)
	cmovbl	%r15d, %r11d
	cmpl	%r10d, %r12d
	movl	%r10d, %esi
	cmoval	%r12d, %esi
	movl	28(%rsp), %ecx
	movl	%ecx, 60(%rax)
	cmovbl	%r12d, %r10d
	cmpl	%r14d, %r8d
	movl	%r14d, %r15d
	cmoval	%r8d, %r15d
	movl	8(%rsp), %ecx
	movl	%ecx, 4(%rax)
	cmovael	%r14d, %r8d
	movl	20(%rsp), %r14d
	cmpl	%r14d, %edi
	movl	%r14d, %ecx
	cmoval	%edi, %ecx
	movl	16(%rsp), %r12d
	movl	%r12d, 56(%rax)
	cmovael	%r14d, %edi
	cmpl	%r11d, %r13d
	movq	%rbx, %r14
	movl	%r11d, %ebx
	cmoval	%r13d, %ebx
	movl	%ebp, 8(%rax)
	cmovbl	%r13d, %r11d
	cmpl	%edx, %r10d
	movl	%edx, %ebp
	cmoval	%r10d, %ebp
	movl	4(%rsp), %r12d
	movl	%r12d, 52(%rax)
	cmovael	%edx, %r10d
	cmpl	%r8d, %esi
	movl	%r8d, %edx
	cmoval	%esi, %edx
	movl	%r11d, 12(%rax)
	cmovbl	%esi, %r8d
	cmpl	%r15d, %edi
	movl	%r15d, %esi
	cmoval	%edi, %esi
	movl	%ebx, 16(%rax)
	movq	%r14, %rbx
	cmovael	%r15d, %edi
	cmpl	%r9d, %ecx
	movl	%r9d, %r11d
	cmoval	%ecx, %r11d
	movl	%r10d, 20(%rax)
	cmovael	%r9d, %ecx
	cmpl	%ebp, %r8d
	movl	%ebp, %r9d
	cmoval	%r8d, %r9d
	movl	%esi, 40(%rax)
	movl	%ecx, 44(%rax)
	cmovael	%ebp, %r8d
	movl	%r11d, 48(%rax)
	movl	%r8d, 24(%rax)
	movl	%r9d, 28(%rax)
	cmpl	%edx, %edi
	movl	%edx, %ecx
	cmoval	%edi, %ecx
	cmovael	%edx, %edi
	movl	%edi, 32(%rax)
	movl	%ecx, 36(%rax)
	jmp	.LBB315b4148_80
.LBB315b4148_3:
	leaq	(%r14,%r15,4), %rax
	movq	%r12, %rcx
	shrq	%rcx
	movq	%rcx, %rdx
	jmp	.LBB315b4148_4
	.p2align	4
.LBB315b4148_15:
	testq	%rdx, %rdx
	je	.LBB315b4148_16
.LBB315b4148_4:
	decq	%rdx
	movq	%rdx, %rsi
	jmp	.LBB315b4148_5
	.p2align	4
.LBB315b4148_11:
	movl	%r9d, (%rax,%rdi,4)
	movl	%r8d, (%rax,%rsi,4)
.LBB315b4148_14:
	cmpq	%rcx, %rsi
	jae	.LBB315b4148_15
.LBB315b4148_5:
	movq	%rsi, %rdi
	leaq	1(,%rsi,2), %rsi
	leaq	2(,%rdi,2), %r8
	cmpq	%r12, %r8
	je	.LBB315b4148_9
	leaq	(%rdi,%rdi), %r9
	movl	(%rax,%rsi,4), %r10d
	cmpl	8(%rax,%r9,4), %r10d
	jb	.LBB315b4148_8
	movq	%rsi, %r8
.LBB315b4148_8:
	movq	%r8, %rsi
.LBB315b4148_9:
	movl	(%rax,%rdi,4), %r8d
	movl	(%rax,%rsi,4), %r9d
	cmpl	%r9d, %r8d
	jae	.LBB315b4148_15
	cmpq	%rsi, %rdi
	jb	.LBB315b4148_11
	jbe	.LBB315b4148_14
	movl	%r8d, (%rax,%rsi,4)
	movl	%r9d, (%rax,%rdi,4)
	jmp	.LBB315b4148_14
	.p2align	4
.LBB315b4148_28:
	cmpq	$1, %r12
	jbe	.LBB315b4148_90
.LBB315b4148_16:
	movl	(%rax), %ecx
	movl	-4(%rax,%r12,4), %edx
	movl	%edx, (%rax)
	movl	%ecx, -4(%rax,%r12,4)
	decq	%r12
	movq	%r12, %rcx
	shrq	%rcx
	je	.LBB315b4148_28
	xorl	%edx, %edx
	jmp	.LBB315b4148_18
	.p2align	4
.LBB315b4148_24:
	movl	%r8d, (%rax,%rsi,4)
	movl	%edi, (%rax,%rdx,4)
.LBB315b4148_27:
	cmpq	%rcx, %rdx
	jae	.LBB315b4148_28
.LBB315b4148_18:
	movq	%rdx, %rsi
	leaq	1(,%rdx,2), %rdx
	leaq	2(,%rsi,2), %rdi
	cmpq	%r12, %rdi
	je	.LBB315b4148_22
	leaq	(%rsi,%rsi), %r8
	movl	(%rax,%rdx,4), %r9d
	cmpl	8(%rax,%r8,4), %r9d
	jb	.LBB315b4148_21
	movq	%rdx, %rdi
.LBB315b4148_21:
	movq	%rdi, %rdx
.LBB315b4148_22:
	movl	(%rax,%rsi,4), %edi
	movl	(%rax,%rdx,4), %r8d
	cmpl	%r8d, %edi
	jae	.LBB315b4148_28
	cmpq	%rdx, %rsi
	jb	.LBB315b4148_24
	jbe	.LBB315b4148_27
	movl	%edi, (%rax,%rdx,4)
	movl	%r8d, (%rax,%rsi,4)
	jmp	.LBB315b4148_27
.LBB315b4148_75:
	cmpq	$12, %rbx
	jb	.LBB315b4148_77
	movl	32(%rax), %ecx
	movl	(%rax), %ebp
	movl	4(%rax), %esi
	cmpl	%ebp, %ecx
	movl	%ebp, %r8d
	cmoval	%ecx, %r8d
	cmovbl	%ecx, %ebp
	movl	28(%rax), %ecx
	cmpl	%esi, %ecx
	movl	%esi, %edx
	cmoval	%ecx, %edx
	movl	%edx, 4(%rsp)
	cmovbl	%ecx, %esi
	movl	8(%rax), %r15d
	movl	24(%rax), %ecx
	cmpl	%r15d, %ecx
	movl	%r15d, %edi
	cmoval	%ecx, %edi
	cmovbl	%ecx, %r15d
	movl	12(%rax), %r11d
	movl	44(%rax), %ecx
	cmpl	%r11d, %ecx
	movl	%r11d, %edx
	cmoval	%ecx, %edx
	movl	%edx, 32(%rsp)
	cmovbl	%ecx, %r11d
	movl	16(%rax), %r10d
	movl	40(%rax), %edx
	cmpl	%r10d, %edx
	movl	%r10d, %ecx
	cmoval	%edx, %ecx
	cmovbl	%edx, %r10d
	movl	20(%rax), %edx
	movq	%rbx, 8(%rsp)
	movl	36(%rax), %ebx
	cmpl	%edx, %ebx
	movl	%edx, %r9d
	cmoval	%ebx, %r9d
	cmovbl	%ebx, %edx
	cmpl	%ebp, %esi
	movl	%ebp, %r12d
	cmoval	%esi, %r12d
	cmovael	%ebp, %esi
	cmpl	%r15d, %edx
	movl	%r15d, %r13d
	cmoval	%edx, %r13d
	cmovael	%r15d, %edx
	cmpl	%r11d, %r10d
	movl	%r11d, %ebp
	cmoval	%r10d, %ebp
	cmovael	%r11d, %r10d
	cmpl	%edi, %r9d
	movl	%edi, %r14d
	cmoval	%r9d, %r14d
	cmovael	%edi, %r9d
	movl	4(%rsp), %edi
	cmpl	%edi, %r8d
	movl	%edi, %r15d
	cmoval	%r8d, %r15d
	cmovbl	%r8d, %edi
	movl	%edi, %ebx
	movl	32(%rsp), %edi
	cmpl	%ecx, %edi
	movl	%ecx, %r8d
	cmoval	%edi, %r8d
	cmovbl	%edi, %ecx
	cmpl	%esi, %edx
	movl	%esi, %edi
	cmoval	%edx, %edi
	cmovael	%esi, %edx
	cmpl	%r12d, %r9d
	movl	%r12d, %r11d
	cmoval	%r9d, %r11d
	cmovael	%r12d, %r9d
	cmpl	%r13d, %ecx
	movl	%r13d, %r12d
	cmoval	%ecx, %r12d
	cmovael	%r13d, %ecx
	cmpl	%r14d, %r8d
	movl	%r14d, %esi
	cmoval	%r8d, %esi
	cmovael	%r14d, %r8d
	cmpl	%edx, %r10d
	movl	%edx, %r13d
	cmoval	%r10d, %r13d
	cmovbl	%r10d, %edx
	cmpl	%r9d, %edi
	movl	%r9d, %r14d
	cmoval	%edi, %r14d
	cmovbl	%edi, %r9d
	cmpl	%ebp, %r11d
	movl	%ebp, %edi
	cmoval	%r11d, %edi
	cmovael	%ebp, %r11d
	cmpl	%ecx, %ebx
	movl	%ecx, %r10d
	cmoval	%ebx, %r10d
	cmovbl	%ebx, %ecx
	cmpl	%r15d, %esi
	movl	%r15d, %ebx
	cmoval	%esi, %ebx
	movl	%ebx, 4(%rsp)
	cmovael	%r15d, %esi
	cmpl	%r8d, %r12d
	movl	%r8d, %ebp
	cmoval	%r12d, %ebp
	cmovbl	%r12d, %r8d
	cmpl	%r9d, %r11d
	movl	%r9d, %r15d
	cmoval	%r11d, %r15d
	cmovael	%r9d, %r11d
	cmpl	%r13d, %ecx
	movl	%r13d, %r9d
	cmoval	%ecx, %r9d
	cmovael	%r13d, %ecx
	cmpl	%edi, %esi
	movl	%edi, %ebx
	cmoval	%esi, %ebx
	cmovael	%edi, %esi
	cmpl	%r10d, %ebp
	movl	%r10d, %edi
	cmoval	%ebp, %edi
	cmovael	%r10d, %ebp
	cmpl	%r11d, %ecx
	movl	%r11d, %r13d
	cmoval	%ecx, %r13d
	cmovael	%r11d, %ecx
	cmpl	%r14d, %r9d
	movl	%r14d, %r11d
	cmoval	%r9d, %r11d
	cmovael	%r14d, %r9d
	cmpl	%esi, %r8d
	movl	%esi, %r10d
	cmoval	%r8d, %r10d
	cmovbl	%r8d, %esi
	cmpl	%ebx, %edi
	movl	%ebx, %r12d
	cmoval	%edi, %r12d
	cmovael	%ebx, %edi
	cmpl	%r9d, %r13d
	movl	%r9d, %r8d
	cmoval	%r13d, %r8d
	cmovbl	%r13d, %r9d
	cmpl	%r15d, %r11d
	movl	%r15d, %ebx
	cmoval	%r11d, %ebx
	cmovael	%r15d, %r11d
	cmpl	%esi, %ebp
	movl	%esi, %r14d
	cmoval	%ebp, %r14d
	movl	%edx, (%rax)
	cmovbl	%ebp, %esi
	cmpl	%edi, %r10d
	movl	%edi, %edx
	cmoval	%r10d, %edx
	movl	4(%rsp), %ebp
	movl	%ebp, 44(%rax)
	cmovbl	%r10d, %edi
	cmpl	%r11d, %esi
	movl	%r11d, %r10d
	cmoval	%esi, %r10d
	movl	%ecx, 4(%rax)
	cmovael	%r11d, %esi
	cmpl	%ebx, %r14d
	movl	%ebx, %ecx
	cmoval	%r14d, %ecx
	movl	%r12d, 40(%rax)
	cmovael	%ebx, %r14d
	movq	8(%rsp), %rbx
	cmpl	%r8d, %esi
	movl	%r8d, %r11d
	cmoval	%esi, %r11d
	movl	%r9d, 8(%rax)
	cmovael	%r8d, %esi
	cmpl	%r14d, %r10d
	movl	%r14d, %r8d
	cmoval	%r10d, %r8d
	movl	%edx, 36(%rax)
	movl	%esi, 12(%rax)
	cmovbl	%r10d, %r14d
	movl	%r11d, 16(%rax)
	movl	%r14d, 20(%rax)
	movl	%r8d, 24(%rax)
	cmpl	%ecx, %edi
	movl	%ecx, %edx
	cmoval	%edi, %edx
	cmovbl	%edi, %ecx
	movl	%ecx, 28(%rax)
	movl	%edx, 32(%rax)
	jmp	.LBB315b4148_80
.LBB315b4148_77:
	cmpq	$8, %rbx
	jb	.LBB315b4148_79
	movl	8(%rax), %ecx
	movl	(%rax), %edx
	movl	4(%rax), %r11d
	cmpl	%edx, %ecx
	movl	%edx, %r8d
	cmoval	%ecx, %r8d
	cmovbl	%ecx, %edx
	movl	12(%rax), %ecx
	cmpl	%r11d, %ecx
	movl	%r11d, %r10d
	cmoval	%ecx, %r10d
	cmovbl	%ecx, %r11d
	movl	16(%rax), %r9d
	movl	24(%rax), %ecx
	cmpl	%r9d, %ecx
	movl	%r9d, %edi
	cmoval	%ecx, %edi
	cmovbl	%ecx, %r9d
	movl	20(%rax), %ecx
	movq	%rbx, %r14
	movl	28(%rax), %ebx
	cmpl	%ecx, %ebx
	movl	%ecx, %esi
	cmoval	%ebx, %esi
	cmovbl	%ebx, %ecx
	cmpl	%edx, %r9d
	movl	%edx, %ebp
	cmoval	%r9d, %ebp
	cmovael	%edx, %r9d
	cmpl	%r11d, %ecx
	movl	%r11d, %edx
	cmoval	%ecx, %edx
	cmovael	%r11d, %ecx
	cmpl	%r8d, %edi
	movl	%r8d, %r11d
	cmoval	%edi, %r11d
	cmovael	%r8d, %edi
	cmpl	%r10d, %esi
	movl	%r10d, %r8d
	cmoval	%esi, %r8d
	cmovael	%r10d, %esi
	cmpl	%r9d, %ecx
	movl	%r9d, %r10d
	cmoval	%ecx, %r10d
	cmovael	%r9d, %ecx
	cmpl	%edi, %esi
	movl	%edi, %ebx
	cmoval	%esi, %ebx
	cmovael	%edi, %esi
	cmpl	%ebp, %edx
	movl	%ebp, %edi
	cmoval	%edx, %edi
	cmovael	%ebp, %edx
	cmpl	%r11d, %r8d
	movl	%r11d, %r9d
	cmoval	%r8d, %r9d
	cmovael	%r11d, %r8d
	cmpl	%esi, %edx
	movl	%esi, %r11d
	cmoval	%edx, %r11d
	cmovael	%esi, %edx
	cmpl	%ebx, %edi
	movl	%ebx, %esi
	cmoval	%edi, %esi
	cmovael	%ebx, %edi
	cmpl	%r10d, %r11d
	movl	%r10d, %ebx
	cmoval	%r11d, %ebx
	cmovael	%r10d, %r11d
	cmpl	%edi, %r8d
	movl	%edi, %r10d
	cmoval	%r8d, %r10d
	cmovbl	%r8d, %edi
	cmpl	%r11d, %edx
	movl	%r11d, %r8d
	cmoval	%edx, %r8d
	movl	%ecx, (%rax)
	cmovbl	%edx, %r11d
	cmpl	%edi, %ebx
	movl	%edi, %ecx
	cmoval	%ebx, %ecx
	movl	%r9d, 28(%rax)
	movl	%r11d, 4(%rax)
	cmovbl	%ebx, %edi
	movq	%r14, %rbx
	movl	%r8d, 8(%rax)
	movl	%edi, 12(%rax)
	movl	%ecx, 16(%rax)
	cmpl	%esi, %r10d
	movl	%esi, %ecx
	cmoval	%r10d, %ecx
	cmovael	%esi, %r10d
	movl	%r10d, 20(%rax)
	movl	%ecx, 24(%rax)
	jmp	.LBB315b4148_80
.LBB315b4148_79:
	cmpq	$2, %rbx
	jb	.LBB315b4148_90
.LBB315b4148_80:
	movl	$1, %ecx
	jmp	.LBB315b4148_81
.LBB315b4148_83:
	xorl	%esi, %esi
.LBB315b4148_88:
	movl	%edx, (%rax,%rsi)
.LBB315b4148_89:
	incq	%rcx
	cmpq	%rbx, %rcx
	je	.LBB315b4148_90
.LBB315b4148_81:
	movl	-4(%rax,%rcx,4), %edi
	movl	(%rax,%rcx,4), %edx
	cmpl	%edi, %edx
	jae	.LBB315b4148_89
	movq	%rcx, %rsi
	movl	%edi, (%rax,%rcx,4)
	decq	%rsi
	je	.LBB315b4148_83
	.p2align	4
.LBB315b4148_84:
	movl	-4(%rax,%rsi,4), %edi
	cmpl	%edi, %edx
	jae	.LBB315b4148_87
	movl	%edi, (%rax,%rsi,4)
	decq	%rsi
	jne	.LBB315b4148_84
	xorl	%esi, %esi
.LBB315b4148_87:
	shlq	$2, %rsi
	jmp	.LBB315b4148_88
.LBB315b4148_90:
	addq	$40, %rsp
	popq	%rbx
	popq	%r12
	popq	%r13
	popq	%r14
	popq	%r15
	popq	%rbp
	retq
.Lfunc_end315b4148:
	.size	core.slice.sort.unstable.quicksort.190f92464ae8a1e1, .Lfunc_end315b4148-core.slice.sort.unstable.quicksort.190f92464ae8a1e1

	.section	.text.core.slice.sort.pivot.median_of_medians.190f92464ae8a1e1,"ax",@progbits
	.p2align	4
	.type	core.slice.sort.pivot.median_of_medians.190f92464ae8a1e1,@function
core.slice.sort.pivot.median_of_medians.190f92464ae8a1e1:
	pushq	%rbp
	pushq	%r15
	pushq	%r14
	pushq	%r13
	pushq	%r12
	pushq	%rbx
	pushq	%rax
	movq	%rcx, %r14
	movq	%rdx, %rbx
	cmpq	$8, %r8
	jae	.LBB71ffa8e2_2
	movl	(%rdi,%rsi,4), %eax
	movl	(%rdi,%rbx,4), %ecx
	cmpl	%ecx, %eax
	setb	%dl
	movl	(%rdi,%r14,4), %edi
	cmpl	%edi, %eax
	setb	%al
	xorb	%dl, %al
	cmpl	%edi, %ecx
	setb	%cl
	xorb	%dl, %cl
	cmovneq	%r14, %rbx
	testb	%al, %al
	cmovneq	%rsi, %rbx
	jmp	.LBB71ffa8e2_3
.LBB71ffa8e2_2:
	movq	%r8, %r12
	shrq	$3, %r12
	leaq	(%rsi,%r12,4), %rdx
	andq	$-8, %r8
	subq	%r12, %r8
	leaq	(%r8,%rsi), %rcx
	movq	%rdi, %r13
	movq	%r8, %rbp
	movq	%r12, %r8
	callq	core.slice.sort.pivot.median_of_medians.190f92464ae8a1e1
	movq	%rax, %r15
	leaq	(%rbx,%r12,4), %rdx
	leaq	(%rbx,%rbp), %rcx
	movq	%r13, %rdi
	movq	%rbx, %rsi
	movq	%r12, %r8
	callq	core.slice.sort.pivot.median_of_medians.190f92464ae8a1e1
	movq	%rax, %rbx
	leaq	(%r14,%r12,4), %rdx
	addq	%r14, %rbp
	movq	%r13, %rdi
	movq	%r14, %rsi
	movq	%rbp, %rcx
	movq	%r12, %r8
	callq	core.slice.sort.pivot.median_of_medians.190f92464ae8a1e1
	movl	(%r13,%r15,4), %ecx
	movl	(%r13,%rbx,4), %edx
	cmpl	%edx, %ecx
	setb	%sil
	movl	(%r13,%rax,4), %edi
	cmpl	%edi, %ecx
	setb	%cl
	xorb	%sil, %cl
	cmpl	%edi, %edx
	setb	%dl
	xorb	%sil, %dl
	cmovneq	%rax, %rbx
	testb	%cl, %cl
	cmovneq	%r15, %rbx
.LBB71ffa8e2_3:
	movq	%rbx, %rax
	addq	$8, %rsp
	popq	%rbx
	popq	%r12
	popq	%r13
	popq	%r14
	popq	%r15
	popq	%rbp
	retq
.Lfunc_end71ffa8e2:
	.size	core.slice.sort.pivot.median_of_medians.190f92464ae8a1e1, .Lfunc_end71ffa8e2-core.slice.sort.pivot.median_of_medians.190f92464ae8a1e1

	.section	.text.core.slice.edits.mirror._27_hll_coupons.coupon.Coupon,"ax",@progbits
	.p2align	4
	.type	core.slice.edits.mirror._27_hll_coupons.coupon.Coupon,@function
core.slice.edits.mirror._27_hll_coupons.coupon.Coupon:
	leaq	(%rdi,%rdx,4), %rax
	leaq	(%rsi,%rdx,4), %rcx
	cmpq	%rcx, %rdi
	setb	%cl
	cmpq	%rax, %rsi
	setb	%al
	testb	%al, %cl
	je	.LBBce6058b4_2
	xorl	%eax, %eax
	jmp	.LBBce6058b4_5
.LBBce6058b4_2:
	movabsq	$9223372036854775804, %rax
	andq	%rdx, %rax
	movq	%rdx, %rcx
	andq	$-4, %rcx
	negq	%rcx
	leaq	(%rsi,%rdx,4), %r8
	addq	$-16, %r8
	xorl	%r9d, %r9d
	movq	%rdi, %r10
	.p2align	4
.LBBce6058b4_3:
	movdqu	(%r10), %xmm0
	movdqu	(%r8,%r9,4), %xmm1
	pshufd	$27, %xmm1, %xmm1
	movdqu	%xmm1, (%r10)
	pshufd	$27, %xmm0, %xmm0
	movdqu	%xmm0, (%r8,%r9,4)
	addq	$-4, %r9
	addq	$16, %r10
	cmpq	%r9, %rcx
	jne	.LBBce6058b4_3
	cmpq	%rax, %rdx
	je	.LBBce6058b4_10
.LBBce6058b4_5:
	movq	%rax, %rcx
	orq	$1, %rcx
	testb	$1, %dl
	je	.LBBce6058b4_7
	movq	%rax, %r8
	notq	%r8
	addq	%rdx, %r8
	movl	(%rdi,%rax,4), %r9d
	movl	(%rsi,%r8,4), %r10d
	movl	%r10d, (%rdi,%rax,4)
	movl	%r9d, (%rsi,%r8,4)
	movq	%rcx, %rax
.LBBce6058b4_7:
	cmpq	%rcx, %rdx
	je	.LBBce6058b4_10
	subq	%rax, %rdx
	leaq	(%rdi,%rax,4), %rax
	addq	$4, %rax
	.p2align	4
.LBBce6058b4_9:
	movl	-4(%rax), %ecx
	movl	-4(%rsi,%rdx,4), %edi
	movl	%edi, -4(%rax)
	movl	%ecx, -4(%rsi,%rdx,4)
	movl	(%rax), %ecx
	movl	-8(%rsi,%rdx,4), %edi
	movl	%edi, (%rax)
	movl	%ecx, -8(%rsi,%rdx,4)
	addq	$8, %rax
	addq	$-2, %rdx
	jne	.LBBce6058b4_9
.LBBce6058b4_10:
	retq
.Lfunc_endce6058b4:
	.size	core.slice.edits.mirror._27_hll_coupons.coupon.Coupon, .Lfunc_endce6058b4-core.slice.edits.mirror._27_hll_coupons.coupon.Coupon

	.section	.text.hll_coupons.filling.put_by_cycles.5da326502419fe7c,"ax",@progbits
	.p2align	4
	.type	hll_coupons.filling.put_by_cycles.5da326502419fe7c,@function
hll_coupons.filling.put_by_cycles.5da326502419fe7c:
	pushq	%rbp
	pushq	%r15
	pushq	%r14
	pushq	%r13
	pushq	%r12
	pushq	%rbx
	subq	$56, %rsp
	movq	%rcx, %r14
	movq	%rdx, %r15
	movl	%esi, %ebp
	movq	%rdi, %r12
	xorps	%xmm0, %xmm0
	movaps	%xmm0, 16(%rsp)
	movaps	%xmm0, 32(%rsp)
	leaq	8(%rsp), %rax
	movq	%rax, 24(%rsp)
	xorl	%r13d, %r13d
	jmp	.LBBdd72949a_1
	.p2align	4
.LBBdd72949a_3:
	incq	%r13
.LBBdd72949a_1:
	cmpq	%r13, %r14
	je	.LBBdd72949a_14
	movl	(%r15,%r13,4), %ecx
	testl	%ecx, %ecx
	je	.LBBdd72949a_3
	movzbl	%bpl, %edx
	leaq	16(%rsp), %rsi
	movq	%r12, %rdi
	callq	hll_coupons.filling.put_absent.5da326502419fe7c
	testb	%al, %al
	je	.LBBdd72949a_3
	movl	%edx, %ebx
	movq	24(%rsp), %r14
	movq	32(%rsp), %r13
	movq	40(%rsp), %rax
	movq	%rax, 48(%rsp)
	testq	%r13, %r13
	je	.LBBdd72949a_12
	leaq	64(%r14), %rbp
	jmp	.LBBdd72949a_7
	.p2align	4
.LBBdd72949a_11:
	addq	$72, %rbp
	decq	%r13
	je	.LBBdd72949a_12
.LBBdd72949a_7:
	movq	-16(%rbp), %r15
	movq	(%rbp), %r12
	cmpq	$0, -24(%rbp)
	je	.LBBdd72949a_9
	movq	-40(%rbp), %rdi
	callq	rattle_dealloc@PLT
.LBBdd72949a_9:
	testq	%r12, %r12
	je	.LBBdd72949a_11
	movq	%r15, %rdi
	callq	rattle_dealloc@PLT
	jmp	.LBBdd72949a_11
.LBBdd72949a_14:
	movq	24(%rsp), %rbx
	movq	32(%rsp), %r12
	movq	40(%rsp), %r15
	testq	%r12, %r12
	je	.LBBdd72949a_21
	leaq	64(%rbx), %r13
	jmp	.LBBdd72949a_16
	.p2align	4
.LBBdd72949a_20:
	addq	$72, %r13
	decq	%r12
	je	.LBBdd72949a_21
.LBBdd72949a_16:
	movq	-16(%r13), %r14
	movq	(%r13), %rbp
	cmpq	$0, -24(%r13)
	je	.LBBdd72949a_18
	movq	-40(%r13), %rdi
	callq	rattle_dealloc@PLT
.LBBdd72949a_18:
	testq	%rbp, %rbp
	je	.LBBdd72949a_20
	movq	%r14, %rdi
	callq	rattle_dealloc@PLT
	jmp	.LBBdd72949a_20
.LBBdd72949a_21:
	testq	%r15, %r15
	je	.LBBdd72949a_23
	movq	%rbx, %rdi
	callq	rattle_dealloc@PLT
.LBBdd72949a_23:
	xorl	%eax, %eax
	xorl	%ebx, %ebx
	jmp	.LBBdd72949a_24
.LBBdd72949a_12:
	movb	$1, %al
	cmpq	$0, 48(%rsp)
	je	.LBBdd72949a_24
	movq	%r14, %rdi
	callq	rattle_dealloc@PLT
	movb	$1, %al
.LBBdd72949a_24:
	movl	%ebx, %edx
	addq	$56, %rsp
	popq	%rbx
	popq	%r12
	popq	%r13
	popq	%r14
	popq	%r15
	popq	%rbp
	retq
.Lfunc_enddd72949a:
	.size	hll_coupons.filling.put_by_cycles.5da326502419fe7c, .Lfunc_enddd72949a-hll_coupons.filling.put_by_cycles.5da326502419fe7c

	.section	.text.hll_coupons.filling.put_absent.5da326502419fe7c,"ax",@progbits
	.p2align	4
	.type	hll_coupons.filling.put_absent.5da326502419fe7c,@function
hll_coupons.filling.put_absent.5da326502419fe7c:
	pushq	%rbp
	pushq	%r15
	pushq	%r14
	pushq	%r13
	pushq	%r12
	pushq	%rbx
	subq	$72, %rsp
	movl	%ecx, %r13d
	movl	%edx, %r10d
	movq	%rsi, %r8
	movq	%rdi, %r14
	movzbl	16(%rdi), %r11d
	testb	%r11b, %r11b
	je	.LBB3172ab3d_1
	movq	24(%r14), %r12
	movq	32(%r14), %r9
	jmp	.LBB3172ab3d_3
.LBB3172ab3d_1:
	leaq	20(%r14), %r12
	movl	$8, %r9d
.LBB3172ab3d_3:
	movq	(%r14), %rbp
	movl	%r13d, %ebx
	andl	$67108863, %ebx
	testb	$1, %r10b
	movl	%r13d, %r15d
	cmovnel	%ebx, %r15d
	xorps	%xmm0, %xmm0
	movaps	%xmm0, 32(%rsp)
	movq	16(%r8), %rsi
	testq	%rsi, %rsi
	je	.LBB3172ab3d_5
	movq	8(%r8), %rdi
	movq	%rbp, %rdx
	movl	%r15d, %ecx
	movl	%r13d, 28(%rsp)
	movq	%r8, %r13
	movq	%r14, 64(%rsp)
	movl	%r11d, %r14d
	movq	%rbp, 48(%rsp)
	movl	%r10d, %ebp
	movq	%r9, 56(%rsp)
	callq	hll_coupons.long_searches.LongSearches.end_by_cycle.f8e44fc08f8602d9
	movq	56(%rsp), %r9
	movl	%ebp, %r10d
	movq	48(%rsp), %rbp
	movl	%r14d, %r11d
	movq	64(%rsp), %r14
	movq	%r13, %r8
	movl	28(%rsp), %r13d
	cmpb	$1, %al
	je	.LBB3172ab3d_16
.LBB3172ab3d_5:
	cmpq	$64, %r9
	movl	$64, %eax
	cmovbq	%r9, %rax
	movl	%ebp, %ecx
	shrl	%cl, %ebx
	movq	$-1, %rsi
	shlq	%cl, %rsi
	testq	%r9, %r9
	je	.LBB3172ab3d_13
	orl	$1, %ebx
	notq	%rsi
	movl	%esi, %edx
	andl	%r15d, %edx
	movq	%rax, %rcx
	testb	$1, %r10b
	je	.LBB3172ab3d_7
	.p2align	4
.LBB3172ab3d_10:
	movl	(%r12,%rdx,4), %edi
	testl	%edi, %edi
	je	.LBB3172ab3d_16
	andl	$67108863, %edi
	cmpl	%r15d, %edi
	je	.LBB3172ab3d_16
	addq	%rbx, %rdx
	andq	%rsi, %rdx
	decq	%rcx
	jne	.LBB3172ab3d_10
	jmp	.LBB3172ab3d_13
	.p2align	4
.LBB3172ab3d_7:
	movl	(%r12,%rdx,4), %edi
	testl	%edi, %edi
	je	.LBB3172ab3d_16
	cmpl	%r15d, %edi
	je	.LBB3172ab3d_16
	addq	%rbx, %rdx
	andq	%rsi, %rdx
	decq	%rcx
	jne	.LBB3172ab3d_7
.LBB3172ab3d_13:
	movq	%rax, 8(%rsp)
	movl	%r15d, (%rsp)
	movzbl	%r10b, %edx
	leaq	32(%rsp), %rdi
	movq	%r8, %rsi
	movq	%rbp, %rcx
	movq	%r8, %rbx
	movq	%r12, %r8
	callq	hll_coupons.long_searches.LongSearches.end_of_long.5da326502419fe7c
	movzbl	32(%rsp), %eax
	testb	%al, %al
	je	.LBB3172ab3d_15
	movzbl	33(%rsp), %edx
	jmp	.LBB3172ab3d_25
.LBB3172ab3d_15:
	movq	40(%rsp), %rdx
	movzbl	16(%r14), %r11d
	movq	%rbx, %r8
.LBB3172ab3d_16:
	testb	%r11b, %r11b
	je	.LBB3172ab3d_17
	movq	24(%r14), %rax
	movl	%r13d, (%rax,%rdx,4)
	incq	8(%r14)
	movq	16(%r8), %rdi
	testq	%rdi, %rdi
	jne	.LBB3172ab3d_20
	jmp	.LBB3172ab3d_24
.LBB3172ab3d_17:
	movl	%r13d, 20(%r14,%rdx,4)
	incq	8(%r14)
	movq	16(%r8), %rdi
	testq	%rdi, %rdi
	je	.LBB3172ab3d_24
.LBB3172ab3d_20:
	movq	8(%r8), %r8
	jmp	.LBB3172ab3d_21
	.p2align	4
.LBB3172ab3d_23:
	addq	$72, %r8
	decq	%rdi
	je	.LBB3172ab3d_24
.LBB3172ab3d_21:
	movzbl	(%r8), %ecx
	movq	16(%r8), %rsi
	movq	$-1, %rax
	shlq	%cl, %rax
	imulq	%rdx, %rsi
	notq	%rax
	andq	%rsi, %rax
	movq	24(%r8), %r11
	movq	48(%r8), %r9
	movq	%rax, %rsi
	shrq	$6, %rsi
	movq	$-2, %rbx
	movl	%eax, %ecx
	rolq	%cl, %rbx
	movq	$-2, %r10
	andq	%rbx, (%r11,%rsi,8)
	jne	.LBB3172ab3d_23
	movl	%esi, %ecx
	rolq	%cl, %r10
	shrq	$12, %rax
	andq	%r10, (%r9,%rax,8)
	jmp	.LBB3172ab3d_23
.LBB3172ab3d_24:
	xorl	%eax, %eax
	xorl	%edx, %edx
.LBB3172ab3d_25:
	addq	$72, %rsp
	popq	%rbx
	popq	%r12
	popq	%r13
	popq	%r14
	popq	%r15
	popq	%rbp
	retq
.Lfunc_end3172ab3d:
	.size	hll_coupons.filling.put_absent.5da326502419fe7c, .Lfunc_end3172ab3d-hll_coupons.filling.put_absent.5da326502419fe7c

	.section	.text.hll_coupons.long_searches.LongSearches.end_by_cycle.f8e44fc08f8602d9,"ax",@progbits
	.p2align	4
	.type	hll_coupons.long_searches.LongSearches.end_by_cycle.f8e44fc08f8602d9,@function
hll_coupons.long_searches.LongSearches.end_by_cycle.f8e44fc08f8602d9:
	movl	%ecx, %eax
	movq	%rdx, %rcx
	movl	%eax, %r8d
	andl	$67108863, %r8d
	shrl	%cl, %r8d
	testq	%rsi, %rsi
	je	.LBB5c466bb0_1
	pushq	%rbx
	orl	$1, %r8d
	addq	$56, %rdi
	.p2align	4
.LBB5c466bb0_6:
	cmpl	%r8d, -48(%rdi)
	je	.LBB5c466bb0_7
	addq	$72, %rdi
	decq	%rsi
	jne	.LBB5c466bb0_6
.LBB5c466bb0_4:
	xorl	%edx, %edx
	xorl	%eax, %eax
	popq	%rbx
	retq
.LBB5c466bb0_1:
	xorl	%edx, %edx
	xorl	%eax, %eax
	retq
.LBB5c466bb0_7:
	movzbl	-56(%rdi), %ecx
	movl	%eax, %edx
	imulq	-40(%rdi), %rdx
	movq	$-1, %rsi
	shlq	%cl, %rsi
	notq	%rsi
	andq	%rsi, %rdx
	movq	-32(%rdi), %r9
	movq	-24(%rdi), %r11
	movq	-8(%rdi), %r10
	movq	(%rdi), %rdi
	movq	%rdx, %rax
	shrq	$6, %rax
	cmpq	%r11, %rax
	jne	.LBB5c466bb0_8
.LBB5c466bb0_16:
	testq	%r11, %r11
	je	.LBB5c466bb0_4
	movq	(%r9), %rax
	testq	%rax, %rax
	je	.LBB5c466bb0_19
	rep		bsfq	%rax, %rcx
	jmp	.LBB5c466bb0_26
.LBB5c466bb0_8:
	movq	(%r9,%rax,8), %rbx
	movl	%edx, %ecx
	shrq	%cl, %rbx
	shlq	%cl, %rbx
	testq	%rbx, %rbx
	je	.LBB5c466bb0_10
	andq	$-64, %rdx
	rep		bsfq	%rbx, %rcx
	orq	%rdx, %rcx
	jmp	.LBB5c466bb0_26
.LBB5c466bb0_10:
	incq	%rax
	movq	%rax, %rdx
	shrq	$6, %rdx
	cmpq	%rdi, %rdx
	je	.LBB5c466bb0_16
	movq	(%r10,%rdx,8), %rbx
	movl	%eax, %ecx
	shrq	%cl, %rbx
	shlq	%cl, %rbx
	testq	%rbx, %rbx
	je	.LBB5c466bb0_12
	andq	$-64, %rax
	rep		bsfq	%rbx, %rcx
	orq	%rax, %rcx
	jmp	.LBB5c466bb0_25
.LBB5c466bb0_19:
	testq	%rdi, %rdi
	je	.LBB5c466bb0_4
	movq	(%r10), %rax
	andq	$-2, %rax
	je	.LBB5c466bb0_21
	rep		bsfq	%rax, %rcx
	jmp	.LBB5c466bb0_25
.LBB5c466bb0_12:
	movq	%rdx, %rax
	shlq	$6, %rax
	incq	%rdx
.LBB5c466bb0_13:
	cmpq	%rdi, %rdx
	jae	.LBB5c466bb0_16
	movq	(%r10,%rdx,8), %rcx
	addq	$64, %rax
	incq	%rdx
	testq	%rcx, %rcx
	je	.LBB5c466bb0_13
	rep		bsfq	%rcx, %rcx
	addq	%rax, %rcx
	jmp	.LBB5c466bb0_25
.LBB5c466bb0_21:
	movl	$1, %ecx
	xorl	%eax, %eax
.LBB5c466bb0_22:
	cmpq	%rcx, %rdi
	je	.LBB5c466bb0_4
	movq	(%r10,%rcx,8), %rdx
	addq	$-64, %rax
	incq	%rcx
	testq	%rdx, %rdx
	je	.LBB5c466bb0_22
	rep		bsfq	%rdx, %rcx
	subq	%rax, %rcx
.LBB5c466bb0_25:
	movl	$64, %eax
	rep		bsfq	(%r9,%rcx,8), %rax
	shlq	$6, %rcx
	addq	%rax, %rcx
.LBB5c466bb0_26:
	movl	%r8d, %edx
	imulq	%rcx, %rdx
	andq	%rsi, %rdx
	movb	$1, %al
	popq	%rbx
	retq
.Lfunc_end5c466bb0:
	.size	hll_coupons.long_searches.LongSearches.end_by_cycle.f8e44fc08f8602d9, .Lfunc_end5c466bb0-hll_coupons.long_searches.LongSearches.end_by_cycle.f8e44fc08f8602d9

	.section	.text.hll_coupons.long_searches.LongSearches.end_of_long.5da326502419fe7c,"ax",@progbits
	.p2align	4
	.type	hll_coupons.long_searches.LongSearches.end_of_long.5da326502419fe7c,@function
hll_coupons.long_searches.LongSearches.end_of_long.5da326502419fe7c:
	pushq	%rbp
	pushq	%r15
	pushq	%r14
	pushq	%r13
	pushq	%r12
	pushq	%rbx
	subq	$88, %rsp
	movq	%r9, %r13
	movq	%r8, %rbx
	movq	%rcx, %r15
	movq	%rsi, %r12
	movq	%rdi, %r14
	movl	144(%rsp), %ebp
	movq	152(%rsp), %rax
	xorps	%xmm0, %xmm0
	movaps	%xmm0, 48(%rsp)
	movq	$0, 64(%rsp)
	movq	%rax, (%rsp)
	leaq	48(%rsp), %rdi
	movl	%edx, %esi
	movq	%rcx, %rdx
	movq	%r8, %rcx
	movq	%r9, %r8
	movl	%ebp, %r9d
	callq	hll_coupons.search.search_on
	cmpb	$1, 48(%rsp)
	jne	.LBB75ab429f_35
	movq	64(%rsp), %rax
	addq	(%r12), %rax
	movq	56(%rsp), %r9
	movq	$-1, %rdx
	cmovaeq	%rax, %rdx
	movq	%rdx, (%r12)
	cmpq	$6, %r15
	setae	%al
	movl	$4, %esi
	movl	%r15d, %ecx
	shlq	%cl, %rsi
	cmpq	%rdx, %rsi
	setbe	%cl
	testb	%cl, %al
	je	.LBB75ab429f_26
	movq	%r14, 40(%rsp)
	andl	$67108863, %ebp
	movl	%r15d, %ecx
	shrl	%cl, %ebp
	movq	%r12, 80(%rsp)
	movq	$0, (%r12)
	movq	%r13, %rax
	shrq	$6, %rax
	movq	%r9, 32(%rsp)
	je	.LBB75ab429f_3
	movq	%r15, 16(%rsp)
	movq	%rax, %r15
	leaq	(,%rax,8), %r14
	movl	$8, %esi
	movq	%r14, %rdi
	callq	rattle_alloc@PLT
	testb	$1, %al
	je	.LBB75ab429f_33
	movq	%rdx, %r12
	cmpq	$1, %r15
	movq	%r15, 24(%rsp)
	jne	.LBB75ab429f_7
	xorl	%r14d, %r14d
	jmp	.LBB75ab429f_8
.LBB75ab429f_3:
	movq	%rax, 24(%rsp)
	leaq	8(%rsp), %r12
	xorl	%r14d, %r14d
	orl	$1, %ebp
	testq	%r13, %r13
	jne	.LBB75ab429f_10
	jmp	.LBB75ab429f_14
.LBB75ab429f_7:
	addq	$-8, %r14
	movq	%r12, %rdi
	xorl	%esi, %esi
	movq	%r14, %rdx
	callq	memset@PLT
	leaq	-1(%r15), %r14
.LBB75ab429f_8:
	movq	$0, (%r12,%r14,8)
	incq	%r14
	movq	16(%rsp), %r15
	orl	$1, %ebp
	testq	%r13, %r13
	je	.LBB75ab429f_14
.LBB75ab429f_10:
	movq	$-1, %rax
	movl	%r15d, %ecx
	shlq	%cl, %rax
	movl	%ebp, %edx
	notq	%rax
	xorl	%ecx, %ecx
	xorl	%esi, %esi
	jmp	.LBB75ab429f_11
	.p2align	4
.LBB75ab429f_13:
	addq	%rdx, %rsi
	andq	%rax, %rsi
	incq	%rcx
	cmpq	%rcx, %r13
	je	.LBB75ab429f_14
.LBB75ab429f_11:
	cmpl	$0, (%rbx,%rsi,4)
	jne	.LBB75ab429f_13
	movq	%rcx, %rdi
	movl	$1, %r8d
	shlq	%cl, %r8
	shrq	$6, %rdi
	orq	%r8, (%r12,%rdi,8)
	jmp	.LBB75ab429f_13
.LBB75ab429f_14:
	movq	%r14, %r13
	shrq	$6, %r13
	leaq	8(,%r13,8), %rbx
	movl	$8, %esi
	movq	%rbx, %rdi
	callq	rattle_alloc@PLT
	testb	$1, %al
	je	.LBB75ab429f_27
	testq	%r13, %r13
	je	.LBB75ab429f_17
	addq	$-8, %rbx
	movq	%rdx, %rdi
	xorl	%esi, %esi
	movq	%rdx, 16(%rsp)
	movq	%rbx, %rdx
	callq	memset@PLT
	movq	16(%rsp), %rdx
.LBB75ab429f_17:
	movq	$0, (%rdx,%r13,8)
	testq	%r14, %r14
	movq	32(%rsp), %r9
	je	.LBB75ab429f_22
	xorl	%ecx, %ecx
	jmp	.LBB75ab429f_19
	.p2align	4
.LBB75ab429f_21:
	incq	%rcx
	cmpq	%rcx, %r14
	je	.LBB75ab429f_22
.LBB75ab429f_19:
	cmpq	$0, (%r12,%rcx,8)
	je	.LBB75ab429f_21
	movq	%rcx, %rax
	shrq	$3, %rax
	movabsq	$1152921504606846968, %rsi
	movl	$1, %edi
	shlq	%cl, %rdi
	andq	%rax, %rsi
	orq	%rdi, (%rdx,%rsi)
	jmp	.LBB75ab429f_21
.LBB75ab429f_27:
	cmpq	$0, 24(%rsp)
	je	.LBB75ab429f_33
	movq	%r12, %rdi
.LBB75ab429f_32:
	callq	rattle_dealloc@PLT
.LBB75ab429f_33:
	movq	40(%rsp), %rax
	movw	$3073, (%rax)
	movq	$0, 8(%rax)
	jmp	.LBB75ab429f_34
.LBB75ab429f_22:
	movq	80(%rsp), %rbx
	movq	16(%rbx), %rax
	cmpq	%rax, 24(%rbx)
	je	.LBB75ab429f_23
.LBB75ab429f_25:
	incq	%r13
	movl	$2, %ecx
	movl	$2, %esi
	subl	%ebp, %esi
	movl	%esi, %edi
	imull	%ebp, %edi
	movl	$2, %r8d
	subl	%edi, %r8d
	imull	%esi, %r8d
	movl	%r8d, %esi
	imull	%ebp, %esi
	movl	$2, %edi
	subl	%esi, %edi
	imull	%r8d, %edi
	movl	%edi, %esi
	imull	%ebp, %esi
	movl	$2, %r8d
	subl	%esi, %r8d
	imull	%edi, %r8d
	movl	%r8d, %esi
	imull	%ebp, %esi
	subl	%esi, %ecx
	imull	%r8d, %ecx
	movq	8(%rbx), %rsi
	leaq	(%rax,%rax,8), %rdi
	movq	%r15, (%rsi,%rdi,8)
	movl	%ebp, 8(%rsi,%rdi,8)
	movl	$0, 12(%rsi,%rdi,8)
	movq	%rcx, 16(%rsi,%rdi,8)
	movq	%r12, 24(%rsi,%rdi,8)
	movq	%r14, 32(%rsi,%rdi,8)
	movq	24(%rsp), %rcx
	movq	%rcx, 40(%rsi,%rdi,8)
	movq	%rdx, 48(%rsi,%rdi,8)
	movq	%r13, 56(%rsi,%rdi,8)
	movq	%r13, 64(%rsi,%rdi,8)
	incq	%rax
	movq	%rax, 16(%rbx)
	movq	40(%rsp), %r14
.LBB75ab429f_26:
	movw	$0, (%r14)
	movq	%r9, 8(%r14)
.LBB75ab429f_34:
	addq	$88, %rsp
	popq	%rbx
	popq	%r12
	popq	%r13
	popq	%r14
	popq	%r15
	popq	%rbp
	retq
.LBB75ab429f_23:
	movq	%rdx, 16(%rsp)
	leaq	8(%rbx), %rdi
	callq	std_alloc.vec.Vec.grow_amortized.3490b8d444db1d1f
	testb	%al, %al
	je	.LBB75ab429f_29
	movq	16(%rbx), %rax
	movq	16(%rsp), %rdx
	movq	32(%rsp), %r9
	jmp	.LBB75ab429f_25
.LBB75ab429f_29:
	cmpq	$0, 24(%rsp)
	je	.LBB75ab429f_31
	movq	%r12, %rdi
	callq	rattle_dealloc@PLT
.LBB75ab429f_31:
	movq	16(%rsp), %rdi
	jmp	.LBB75ab429f_32
.LBB75ab429f_35:
	ud2
.Lfunc_end75ab429f:
	.size	hll_coupons.long_searches.LongSearches.end_of_long.5da326502419fe7c, .Lfunc_end75ab429f-hll_coupons.long_searches.LongSearches.end_of_long.5da326502419fe7c

	.section	.text.hll_coupons.search.search_on,"ax",@progbits
	.p2align	4
	.type	hll_coupons.search.search_on,@function
hll_coupons.search.search_on:
	pushq	%rbx
	movq	%rcx, %rax
	movq	%rdx, %rcx
	movl	%r9d, %r10d
	andl	$67108863, %r10d
	shrl	%cl, %r10d
	movq	16(%rsp), %rdx
	movq	$-1, %r11
	shlq	%cl, %r11
	cmpq	%r8, %rdx
	jae	.LBB9360943f_11
	orl	$1, %r10d
	notq	%r11
	movq	%rdx, %rbx
	imulq	%r10, %rbx
	movl	%r9d, %ecx
	addq	%rbx, %rcx
	andq	%r11, %rcx
	testb	$1, %sil
	je	.LBB9360943f_2
	movq	%rdx, %rsi
	.p2align	4
.LBB9360943f_7:
	movl	(%rax,%rcx,4), %ebx
	testl	%ebx, %ebx
	je	.LBB9360943f_5
	andl	$67108863, %ebx
	cmpl	%r9d, %ebx
	je	.LBB9360943f_5
	addq	%r10, %rcx
	incq	%rsi
	andq	%r11, %rcx
	cmpq	%rsi, %r8
	jne	.LBB9360943f_7
	jmp	.LBB9360943f_11
.LBB9360943f_2:
	movq	%rdx, %rsi
	.p2align	4
.LBB9360943f_3:
	movl	(%rax,%rcx,4), %ebx
	testl	%ebx, %ebx
	je	.LBB9360943f_5
	cmpl	%r9d, %ebx
	je	.LBB9360943f_5
	addq	%r10, %rcx
	incq	%rsi
	andq	%r11, %rcx
	cmpq	%rsi, %r8
	jne	.LBB9360943f_3
.LBB9360943f_11:
	xorps	%xmm0, %xmm0
	movups	%xmm0, (%rdi)
	movq	$0, 16(%rdi)
	popq	%rbx
	retq
.LBB9360943f_5:
	subq	%rdx, %rsi
	movq	$1, (%rdi)
	movq	%rcx, 8(%rdi)
	movq	%rsi, 16(%rdi)
	popq	%rbx
	retq
.Lfunc_end9360943f:
	.size	hll_coupons.search.search_on, .Lfunc_end9360943f-hll_coupons.search.search_on

	.section	.text.unlikely.std_alloc.vec.Vec.grow_amortized.3490b8d444db1d1f,"ax",@progbits
	.p2align	4
	.type	std_alloc.vec.Vec.grow_amortized.3490b8d444db1d1f,@function
std_alloc.vec.Vec.grow_amortized.3490b8d444db1d1f:
	movq	8(%rdi), %rax
	cmpq	$-1, %rax
	je	.LBBeae636ab_5
	pushq	%r14
	pushq	%rbx
	pushq	%rax
	movq	16(%rdi), %rcx
	cmpq	$4, %rax
	movl	$3, %ebx
	cmovaeq	%rax, %rbx
	incq	%rbx
	movq	%rcx, %rsi
	shrq	$62, %rsi
	leaq	(%rcx,%rcx), %rdx
	cmpq	%rdx, %rbx
	cmovaq	%rbx, %rdx
	testq	%rsi, %rsi
	cmoveq	%rdx, %rbx
	movabsq	$128102389400760775, %rsi
	cmpq	%rsi, %rbx
	ja	.LBBeae636ab_6
	testq	%rcx, %rcx
	je	.LBBeae636ab_8
	movq	%rdi, %r14
	movq	(%rdi), %rdi
	shlq	$3, %rax
	leaq	(%rax,%rax,8), %rsi
	leaq	(,%rbx,8), %rax
	leaq	(%rax,%rax,8), %rdx
	movl	$8, %ecx
	callq	rattle_realloc@PLT
	testb	$1, %al
	je	.LBBeae636ab_6
.LBBeae636ab_9:
	movq	%rdx, (%r14)
	movq	%rbx, 16(%r14)
	movb	$1, %al
	addq	$8, %rsp
	popq	%rbx
	popq	%r14
	retq
.LBBeae636ab_5:
	xorl	%eax, %eax
	retq
.LBBeae636ab_8:
	movq	%rdi, %r14
	shlq	$3, %rdx
	leaq	(%rdx,%rdx,8), %rdi
	movl	$8, %esi
	callq	rattle_alloc@PLT
	testb	$1, %al
	jne	.LBBeae636ab_9
.LBBeae636ab_6:
	xorl	%eax, %eax
	addq	$8, %rsp
	popq	%rbx
	popq	%r14
	retq
.Lfunc_endeae636ab:
	.size	std_alloc.vec.Vec.grow_amortized.3490b8d444db1d1f, .Lfunc_endeae636ab-std_alloc.vec.Vec.grow_amortized.3490b8d444db1d1f

	.section	.text.hll_coupons.aux_map_builder.has_mark.5da326502419fe7c,"ax",@progbits
	.p2align	4
	.type	hll_coupons.aux_map_builder.has_mark.5da326502419fe7c,@function
hll_coupons.aux_map_builder.has_mark.5da326502419fe7c:
	pushq	%rbp
	pushq	%r15
	pushq	%r14
	pushq	%r13
	pushq	%r12
	pushq	%rbx
	pushq	%rax
	movl	%edx, %r14d
	movq	%rsi, %rbx
	cmpb	$1, (%rsi)
	jne	.LBBd841511f_2
	movq	8(%rbx), %rax
	movl	%r14d, %ecx
	shrl	$3, %r14d
	andl	$8388600, %r14d
	movq	(%rax,%r14), %rax
	btq	%rcx, %rax
	setb	%dl
	xorl	%eax, %eax
	jmp	.LBBd841511f_23
.LBBd841511f_2:
	movq	%rdi, %r15
	movzbl	(%rdi), %ecx
	movl	$1, %r13d
	shlq	%cl, %r13
	shrq	$6, %r13
	leaq	8(,%r13,8), %r12
	movl	$8, %esi
	movq	%r12, %rdi
	callq	rattle_alloc@PLT
	testb	$1, %al
	je	.LBBd841511f_3
	testq	%r13, %r13
	je	.LBBd841511f_6
	addq	$-8, %r12
	movq	%rdx, %rdi
	xorl	%esi, %esi
	movq	%rdx, %rbp
	movq	%r12, %rdx
	callq	memset@PLT
	movq	%rbp, %rdx
.LBBd841511f_6:
	movq	$0, (%rdx,%r13,8)
	cmpb	$0, 24(%r15)
	je	.LBBd841511f_7
	movq	40(%r15), %rax
	movq	32(%r15), %r15
	incq	%r13
	cmpq	$4, %rax
	jb	.LBBd841511f_16
	jmp	.LBBd841511f_11
.LBBd841511f_3:
	movb	$1, %al
	movb	$12, %dl
	jmp	.LBBd841511f_23
.LBBd841511f_7:
	addq	$28, %r15
	movl	$8, %eax
	incq	%r13
	cmpq	$4, %rax
	jae	.LBBd841511f_11
	.p2align	4
.LBBd841511f_16:
	testq	%rax, %rax
	je	.LBBd841511f_19
	decq	%rax
	movl	(%r15), %ecx
	addq	$4, %r15
	testq	%rcx, %rcx
	je	.LBBd841511f_16
	movl	%ecx, %esi
	shrl	$3, %esi
	movl	$1, %edi
	shlq	%cl, %rdi
	andl	$8388600, %esi
	orq	%rdi, (%rdx,%rsi)
	cmpq	$4, %rax
	jb	.LBBd841511f_16
	.p2align	4
.LBBd841511f_11:
	cmpl	$0, (%r15)
	jne	.LBBd841511f_16
	cmpl	$0, 4(%r15)
	jne	.LBBd841511f_16
	cmpl	$0, 8(%r15)
	jne	.LBBd841511f_16
	cmpl	$0, 12(%r15)
	jne	.LBBd841511f_16
	addq	$16, %r15
	addq	$-4, %rax
	cmpq	$3, %rax
	ja	.LBBd841511f_11
	jmp	.LBBd841511f_16
.LBBd841511f_19:
	movl	%r14d, %eax
	shrl	$3, %r14d
	andl	$8388600, %r14d
	movq	(%rdx,%r14), %rcx
	btq	%rax, %rcx
	setb	%bpl
	movzbl	(%rbx), %esi
	movq	8(%rbx), %rdi
	movq	24(%rbx), %rcx
	movq	$1, (%rbx)
	movq	%rdx, 8(%rbx)
	movq	%r13, 16(%rbx)
	movq	%r13, 24(%rbx)
	xorl	%eax, %eax
	cmpb	$1, %sil
	jne	.LBBd841511f_22
	testq	%rcx, %rcx
	je	.LBBd841511f_22
	callq	rattle_dealloc@PLT
	xorl	%eax, %eax
.LBBd841511f_22:
	movl	%ebp, %edx
.LBBd841511f_23:
	addq	$8, %rsp
	popq	%rbx
	popq	%r12
	popq	%r13
	popq	%r14
	popq	%r15
	popq	%rbp
	retq
.Lfunc_endd841511f:
	.size	hll_coupons.aux_map_builder.has_mark.5da326502419fe7c, .Lfunc_endd841511f-hll_coupons.aux_map_builder.has_mark.5da326502419fe7c

	.section	.text.hll_registers.exception_map.add_exception.5da326502419fe7c,"ax",@progbits
	.p2align	4
	.type	hll_registers.exception_map.add_exception.5da326502419fe7c,@function
hll_registers.exception_map.add_exception.5da326502419fe7c:
	pushq	%rbp
	pushq	%r15
	pushq	%r14
	pushq	%r13
	pushq	%r12
	pushq	%rbx
	subq	$296, %rsp
	xorps	%xmm0, %xmm0
	movaps	%xmm0, 240(%rsp)
	movaps	%xmm0, 224(%rsp)
	movaps	%xmm0, 208(%rsp)
	movaps	%xmm0, 192(%rsp)
	movaps	%xmm0, 176(%rsp)
	movaps	%xmm0, 160(%rsp)
	movq	$0, 254(%rsp)
	cmpb	$1, (%rdi)
	jne	.LBB1825867b_2
	addq	$8, %rdi
	movzbl	%cl, %eax
	movl	%edx, %esi
	movl	%eax, %edx
	callq	hll_registers.exception_map.fill_value.5da326502419fe7c
	movl	%edx, %ebx
	jmp	.LBB1825867b_46
.LBB1825867b_2:
	movl	$2, %r14d
	cmpb	$7, %sil
	movq	%rdi, 16(%rsp)
	jae	.LBB1825867b_3
.LBB1825867b_9:
	movl	%edx, 24(%rsp)
	movl	%esi, %r13d
	movl	%ecx, %ebp
	movl	$4, %r12d
	movl	%r14d, %ecx
	shlq	%cl, %r12
	movl	$4, %esi
	movq	%r12, %rdi
	callq	rattle_alloc@PLT
	movb	$12, %bl
	testb	$1, %al
	je	.LBB1825867b_27
	movq	%rdx, %r15
	movl	$1, %ebx
	movl	%r14d, %ecx
	shlq	%cl, %rbx
	leaq	-4(%r12), %rdx
	movq	%r15, %rdi
	xorl	%esi, %esi
	callq	memset@PLT
	movl	$0, -4(%r15,%r12)
	movl	$1, %eax
	movl	24(%rsp), %edx
	movl	%ebp, %ecx
	movl	%r13d, %esi
	jmp	.LBB1825867b_11
.LBB1825867b_3:
	cmpb	$10, %sil
	jae	.LBB1825867b_5
	xorl	%eax, %eax
	movl	$3, %r14d
	xorl	%r15d, %r15d
	xorl	%ebx, %ebx
.LBB1825867b_11:
	movb	%sil, 32(%rsp)
	movl	$0, 33(%rsp)
	movl	$0, 36(%rsp)
	movq	%r14, 40(%rsp)
	movq	$0, 48(%rsp)
	movl	%eax, 56(%rsp)
	movl	$0, 60(%rsp)
	movq	%r15, 64(%rsp)
	movq	%rbx, 72(%rsp)
	movq	%rbx, 80(%rsp)
	xorps	%xmm0, %xmm0
	movups	%xmm0, 88(%rsp)
	leaq	8(%rsp), %rax
	movq	%rax, 104(%rsp)
	movups	%xmm0, 112(%rsp)
	movups	%xmm0, 128(%rsp)
	movups	%xmm0, 144(%rsp)
	movzbl	%cl, %eax
	leaq	32(%rsp), %rdi
	movl	%edx, %esi
	movl	%eax, %edx
	callq	hll_registers.exception_map.fill_value.5da326502419fe7c
	movzbl	%dl, %ecx
	xorl	%ebx, %ebx
	testb	$1, %al
	cmovnel	%ecx, %ebx
	testb	%al, %al
	je	.LBB1825867b_28
	cmpb	$0, 56(%rsp)
	je	.LBB1825867b_15
	cmpq	$0, 80(%rsp)
	je	.LBB1825867b_15
	movq	64(%rsp), %rdi
	callq	rattle_dealloc@PLT
.LBB1825867b_15:
	movq	104(%rsp), %r14
	movq	112(%rsp), %r13
	movq	120(%rsp), %rax
	movq	%rax, 16(%rsp)
	testq	%r13, %r13
	je	.LBB1825867b_22
	leaq	64(%r14), %rbp
	jmp	.LBB1825867b_17
	.p2align	4
.LBB1825867b_21:
	addq	$72, %rbp
	decq	%r13
	je	.LBB1825867b_22
.LBB1825867b_17:
	movq	-16(%rbp), %r15
	movq	(%rbp), %r12
	cmpq	$0, -24(%rbp)
	je	.LBB1825867b_19
	movq	-40(%rbp), %rdi
	callq	rattle_dealloc@PLT
.LBB1825867b_19:
	testq	%r12, %r12
	je	.LBB1825867b_21
	movq	%r15, %rdi
	callq	rattle_dealloc@PLT
	jmp	.LBB1825867b_21
.LBB1825867b_22:
	cmpq	$0, 16(%rsp)
	je	.LBB1825867b_24
	movq	%r14, %rdi
	callq	rattle_dealloc@PLT
.LBB1825867b_24:
	cmpb	$1, 128(%rsp)
	jne	.LBB1825867b_27
	cmpq	$0, 152(%rsp)
	je	.LBB1825867b_27
	movq	136(%rsp), %rdi
	callq	rattle_dealloc@PLT
.LBB1825867b_27:
	movb	$1, %al
	jmp	.LBB1825867b_46
.LBB1825867b_5:
	movl	$4, %r14d
	cmpb	$12, %sil
	jb	.LBB1825867b_9
	movl	$5, %r14d
	cmpb	$14, %sil
	jb	.LBB1825867b_9
	movb	$12, %bl
	cmpb	$68, %sil
	ja	.LBB1825867b_27
	movzbl	%sil, %r14d
	addq	$-8, %r14
	jmp	.LBB1825867b_9
.LBB1825867b_28:
	leaq	136(%rsp), %rcx
	movzbl	128(%rsp), %eax
	movups	32(%rsp), %xmm0
	movups	48(%rsp), %xmm1
	movups	64(%rsp), %xmm2
	movups	80(%rsp), %xmm3
	movups	%xmm0, 166(%rsp)
	movups	%xmm1, 182(%rsp)
	movups	%xmm2, 198(%rsp)
	movups	%xmm3, 214(%rsp)
	movups	96(%rsp), %xmm0
	movups	%xmm0, 230(%rsp)
	movups	112(%rsp), %xmm0
	movups	%xmm0, 246(%rsp)
	movups	(%rcx), %xmm0
	movaps	%xmm0, 272(%rsp)
	movq	16(%rcx), %rcx
	movq	%rcx, 288(%rsp)
	movq	16(%rsp), %rsi
	movzbl	(%rsi), %r8d
	movzbl	32(%rsi), %edx
	movq	40(%rsi), %rdi
	movq	56(%rsi), %rcx
	movq	80(%rsi), %rbx
	movq	88(%rsi), %r14
	movq	96(%rsi), %r13
	movzbl	104(%rsi), %r11d
	movq	112(%rsi), %r9
	movq	128(%rsi), %r10
	movq	$1, (%rsi)
	movups	166(%rsp), %xmm0
	movups	182(%rsp), %xmm1
	movups	198(%rsp), %xmm2
	movups	214(%rsp), %xmm3
	movups	%xmm0, 8(%rsi)
	movups	%xmm1, 24(%rsi)
	movups	%xmm2, 40(%rsi)
	movups	%xmm3, 56(%rsi)
	movups	230(%rsp), %xmm0
	movups	246(%rsp), %xmm1
	movups	%xmm0, 72(%rsi)
	movups	%xmm1, 88(%rsi)
	movq	%rax, 104(%rsi)
	movq	288(%rsp), %rax
	movq	%rax, 128(%rsi)
	movaps	272(%rsp), %xmm0
	movups	%xmm0, 112(%rsi)
	cmpb	$1, %r8b
	jne	.LBB1825867b_44
	movb	%r11b, 7(%rsp)
	movq	%r10, 24(%rsp)
	movq	%r9, 16(%rsp)
	testb	%dl, %dl
	je	.LBB1825867b_32
	testq	%rcx, %rcx
	je	.LBB1825867b_32
	callq	rattle_dealloc@PLT
.LBB1825867b_32:
	testq	%r14, %r14
	je	.LBB1825867b_39
	leaq	64(%rbx), %r12
	jmp	.LBB1825867b_34
	.p2align	4
.LBB1825867b_38:
	addq	$72, %r12
	decq	%r14
	je	.LBB1825867b_39
.LBB1825867b_34:
	movq	-16(%r12), %r15
	movq	(%r12), %rbp
	cmpq	$0, -24(%r12)
	je	.LBB1825867b_36
	movq	-40(%r12), %rdi
	callq	rattle_dealloc@PLT
.LBB1825867b_36:
	testq	%rbp, %rbp
	je	.LBB1825867b_38
	movq	%r15, %rdi
	callq	rattle_dealloc@PLT
	jmp	.LBB1825867b_38
.LBB1825867b_39:
	testq	%r13, %r13
	je	.LBB1825867b_41
	movq	%rbx, %rdi
	callq	rattle_dealloc@PLT
.LBB1825867b_41:
	xorl	%ebx, %ebx
	cmpb	$1, 7(%rsp)
	movq	16(%rsp), %rdi
	movq	24(%rsp), %rcx
	jne	.LBB1825867b_45
	movl	$0, %eax
	testq	%rcx, %rcx
	je	.LBB1825867b_46
	callq	rattle_dealloc@PLT
.LBB1825867b_44:
	xorl	%ebx, %ebx
.LBB1825867b_45:
	xorl	%eax, %eax
.LBB1825867b_46:
	movl	%ebx, %edx
	addq	$296, %rsp
	popq	%rbx
	popq	%r12
	popq	%r13
	popq	%r14
	popq	%r15
	popq	%rbp
	retq
.Lfunc_end1825867b:
	.size	hll_registers.exception_map.add_exception.5da326502419fe7c, .Lfunc_end1825867b-hll_registers.exception_map.add_exception.5da326502419fe7c

	.section	.text.hll_registers.exception_map.fill_value.5da326502419fe7c,"ax",@progbits
	.p2align	4
	.type	hll_registers.exception_map.fill_value.5da326502419fe7c,@function
hll_registers.exception_map.fill_value.5da326502419fe7c:
	pushq	%rbp
	pushq	%r15
	pushq	%r14
	pushq	%r13
	pushq	%r12
	pushq	%rbx
	subq	$88, %rsp
	movl	%edx, %r15d
	movl	%esi, %r13d
	movq	%rdi, %rbx
	shll	$26, %r15d
	movl	%esi, %ebp
	andl	$67108863, %ebp
	orl	%ebp, %r15d
	movq	8(%rdi), %r14
	movl	$3, %eax
	movl	%r14d, %ecx
	shlq	%cl, %rax
	addq	$8, %rdi
	movq	16(%rbx), %rcx
	leaq	4(,%rcx,4), %rcx
	cmpq	%rcx, %rax
	jae	.LBBce044a1f_86
	movq	$0, 72(%rsp)
	incq	%r14
	xorl	%ecx, %ecx
	movl	$0, %r10d
	movl	$0, %eax
	movl	$0, %r12d
	cmpq	$3, %r14
	jne	.LBBce044a1f_2
.LBBce044a1f_8:
	movl	%r13d, 12(%rsp)
	movq	%r14, 24(%rsp)
	movq	$0, 32(%rsp)
	movl	%ecx, 40(%rsp)
	movl	$0, 44(%rsp)
	movq	%r10, 48(%rsp)
	movq	%rax, 56(%rsp)
	movq	%r12, 64(%rsp)
	movzbl	24(%rbx), %edx
	testb	%dl, %dl
	je	.LBBce044a1f_9
	movq	40(%rbx), %rsi
	testq	%rsi, %rsi
	je	.LBBce044a1f_16
	movq	32(%rbx), %r8
	jmp	.LBBce044a1f_12
.LBBce044a1f_86:
	cmpq	$0, 80(%rbx)
	je	.LBBce044a1f_87
.LBBce044a1f_95:
	leaq	64(%rbx), %rsi
	movl	$1, %edx
	movl	%r15d, %ecx
	callq	hll_coupons.filling.put_absent.5da326502419fe7c
	testb	%al, %al
	setne	%al
	jne	.LBBce044a1f_104
	jmp	.LBBce044a1f_101
.LBBce044a1f_2:
	movl	$1, %r12d
	movl	%r14d, %ecx
	shlq	%cl, %r12
	movb	$12, %dl
	cmpq	$60, %r14
	ja	.LBBce044a1f_85
	movl	%r13d, 12(%rsp)
	movl	$4, %r13d
	movl	%r14d, %ecx
	shlq	%cl, %r13
	movl	$4, %esi
	movq	%r13, %rdi
	callq	rattle_alloc@PLT
	movq	%rdx, %r10
	movb	$12, %dl
	testb	$1, %al
	je	.LBBce044a1f_85
	testq	%r14, %r14
	je	.LBBce044a1f_5
	addq	$-4, %r13
	movq	%r10, %rdi
	xorl	%esi, %esi
	movq	%r13, %rdx
	movq	%r10, %r13
	callq	memset@PLT
	movq	%r13, %r10
	leaq	-1(%r12), %rax
	jmp	.LBBce044a1f_7
.LBBce044a1f_87:
	movzbl	24(%rbx), %eax
	testb	%al, %al
	je	.LBBce044a1f_88
	movq	40(%rbx), %rcx
	cmpq	$64, %rcx
	movl	$64, %edx
	cmovbq	%rcx, %rdx
	testq	%rcx, %rcx
	je	.LBBce044a1f_95
	movq	32(%rbx), %rsi
	jmp	.LBBce044a1f_91
.LBBce044a1f_9:
	leaq	28(%rbx), %r8
	movl	$8, %esi
.LBBce044a1f_12:
	movzbl	(%rdi), %ecx
	movl	%ebp, %edi
	shrl	%cl, %edi
	movq	$-1, %r9
	shlq	%cl, %r9
	leaq	44(%rsp), %r11
	orl	$1, %edi
	notq	%r9
	movl	%ebp, %r13d
	.p2align	4
.LBBce044a1f_13:
	andq	%r9, %r13
	movl	(%r8,%r13,4), %ecx
	testl	%ecx, %ecx
	je	.LBBce044a1f_17
	andl	$67108863, %ecx
	cmpl	%ebp, %ecx
	je	.LBBce044a1f_17
	addq	%rdi, %r13
	decq	%rsi
	jne	.LBBce044a1f_13
.LBBce044a1f_16:
	ud2
.LBBce044a1f_17:
	testb	%dl, %dl
	je	.LBBce044a1f_18
	movq	32(%rbx), %rcx
	movl	%r15d, (%rcx,%r13,4)
	incq	16(%rbx)
	cmpb	$0, 24(%rbx)
	je	.LBBce044a1f_21
.LBBce044a1f_22:
	movq	32(%rbx), %rdx
	movq	40(%rbx), %rcx
	jmp	.LBBce044a1f_23
.LBBce044a1f_18:
	movl	%r15d, 28(%rbx,%r13,4)
	incq	16(%rbx)
	cmpb	$0, 24(%rbx)
	jne	.LBBce044a1f_22
.LBBce044a1f_21:
	leaq	28(%rbx), %rdx
	movl	$8, %ecx
.LBBce044a1f_23:
	movq	%rcx, 16(%rsp)
	movq	$-1, %rsi
	movl	%r14d, %ecx
	shlq	%cl, %rsi
	cmpq	$3, %r14
	jne	.LBBce044a1f_27
	xorl	%r12d, %r12d
	movq	%rdx, %rsi
	movq	16(%rsp), %rdi
	.p2align	4
.LBBce044a1f_25:
	testq	%rdi, %rdi
	je	.LBBce044a1f_26
	decq	%rdi
	movl	(%rsi), %r8d
	addq	$4, %rsi
	testq	%r8, %r8
	je	.LBBce044a1f_25
	movl	%r8d, %r9d
	andl	$67108863, %r9d
	movl	%r9d, %r10d
	movl	%r14d, %ecx
	shrl	%cl, %r10d
	movl	%r8d, %ecx
	andl	$7, %ecx
	leal	(,%rcx,4), %r11d
	movl	44(%rsp,%r11), %eax
	testl	%eax, %eax
	je	.LBBce044a1f_51
	andl	$67108863, %eax
	cmpl	%r9d, %eax
	je	.LBBce044a1f_51
	orl	$1, %r10d
	addq	%r10, %rcx
	leal	(,%rcx,4), %r11d
	andl	$28, %r11d
	movl	44(%rsp,%r11), %eax
	testl	%eax, %eax
	je	.LBBce044a1f_51
	andl	$67108863, %eax
	cmpl	%r9d, %eax
	je	.LBBce044a1f_51
	addq	%r10, %rcx
	leal	(,%rcx,4), %r11d
	andl	$28, %r11d
	movl	44(%rsp,%r11), %eax
	testl	%eax, %eax
	je	.LBBce044a1f_51
	andl	$67108863, %eax
	cmpl	%r9d, %eax
	je	.LBBce044a1f_51
	addq	%r10, %rcx
	leal	(,%rcx,4), %r11d
	andl	$28, %r11d
	movl	44(%rsp,%r11), %eax
	testl	%eax, %eax
	je	.LBBce044a1f_51
	andl	$67108863, %eax
	cmpl	%r9d, %eax
	je	.LBBce044a1f_51
	addq	%r10, %rcx
	leal	(,%rcx,4), %r11d
	andl	$28, %r11d
	movl	44(%rsp,%r11), %eax
	testl	%eax, %eax
	je	.LBBce044a1f_51
	andl	$67108863, %eax
	cmpl	%r9d, %eax
	je	.LBBce044a1f_51
	addq	%r10, %rcx
	leal	(,%rcx,4), %r11d
	andl	$28, %r11d
	movl	44(%rsp,%r11), %eax
	testl	%eax, %eax
	je	.LBBce044a1f_51
	andl	$67108863, %eax
	cmpl	%r9d, %eax
	je	.LBBce044a1f_51
	addq	%r10, %rcx
	leal	(,%rcx,4), %r11d
	andl	$28, %r11d
	movl	44(%rsp,%r11), %eax
	testl	%eax, %eax
	je	.LBBce044a1f_51
	andl	$67108863, %eax
	cmpl	%r9d, %eax
	je	.LBBce044a1f_51
	addl	%r10d, %ecx
	shll	$2, %ecx
	movl	%ecx, %r11d
	andl	$28, %r11d
	movl	44(%rsp,%r11), %eax
	testl	%eax, %eax
	je	.LBBce044a1f_51
	andl	$67108863, %eax
	cmpl	%r9d, %eax
	jne	.LBBce044a1f_59
.LBBce044a1f_51:
	movl	%r8d, 44(%rsp,%r11)
	incq	%r12
	movq	%r12, 32(%rsp)
	leaq	44(%rsp), %r11
	jmp	.LBBce044a1f_25
.LBBce044a1f_27:
	cmpq	$64, %rax
	movl	$64, %edi
	cmovbq	%rax, %rdi
	testq	%rax, %rax
	je	.LBBce044a1f_31
	movq	%r10, %r15
	notq	%rsi
	xorl	%r12d, %r12d
	movq	%rdx, %r8
	movq	16(%rsp), %r9
	.p2align	4
.LBBce044a1f_29:
	testq	%r9, %r9
	je	.LBBce044a1f_30
	decq	%r9
	movl	(%r8), %r10d
	addq	$4, %r8
	testq	%r10, %r10
	je	.LBBce044a1f_29
	movq	%r12, 80(%rsp)
	movl	%r10d, %r11d
	andl	$67108863, %r11d
	movl	%r11d, %r12d
	movl	%r14d, %ecx
	shrl	%cl, %r12d
	orl	$1, %r12d
	movq	%rdi, %rbp
	movq	%r11, %rcx
	.p2align	4
.LBBce044a1f_54:
	andq	%rsi, %rcx
	movl	(%r15,%rcx,4), %eax
	testl	%eax, %eax
	je	.LBBce044a1f_57
	andl	$67108863, %eax
	cmpl	%r11d, %eax
	je	.LBBce044a1f_57
	addq	%r12, %rcx
	decq	%rbp
	jne	.LBBce044a1f_54
	jmp	.LBBce044a1f_59
.LBBce044a1f_57:
	movl	%r10d, (%r15,%rcx,4)
	movq	80(%rsp), %r12
	incq	%r12
	movq	%r12, 32(%rsp)
	leaq	44(%rsp), %r11
	jmp	.LBBce044a1f_29
.LBBce044a1f_26:
	movl	$3, %r14d
	xorl	%ecx, %ecx
	jmp	.LBBce044a1f_68
.LBBce044a1f_88:
	leaq	28(%rbx), %rsi
	movl	$8, %edx
.LBBce044a1f_91:
	movl	%ebp, %r8d
	movl	%r14d, %ecx
	shrl	%cl, %r8d
	movq	$-1, %r9
	shlq	%cl, %r9
	orl	$1, %r8d
	notq	%r9
	movl	%ebp, %ecx
	.p2align	4
.LBBce044a1f_92:
	andq	%r9, %rcx
	movl	(%rsi,%rcx,4), %r10d
	testl	%r10d, %r10d
	je	.LBBce044a1f_96
	andl	$67108863, %r10d
	cmpl	%ebp, %r10d
	je	.LBBce044a1f_96
	addq	%r8, %rcx
	decq	%rdx
	jne	.LBBce044a1f_92
	jmp	.LBBce044a1f_95
.LBBce044a1f_96:
	testb	%al, %al
	je	.LBBce044a1f_97
	movq	32(%rbx), %rax
	movl	%r15d, (%rax,%rcx,4)
	jmp	.LBBce044a1f_99
.LBBce044a1f_30:
	movl	$1, %ecx
	jmp	.LBBce044a1f_68
.LBBce044a1f_31:
	xorl	%eax, %eax
	.p2align	4
.LBBce044a1f_32:
	cmpq	%rax, 16(%rsp)
	je	.LBBce044a1f_33
	cmpl	$0, (%rdx,%rax,4)
	leaq	1(%rax), %rax
	je	.LBBce044a1f_32
.LBBce044a1f_59:
	cmpq	$3, %r14
	jne	.LBBce044a1f_61
	xorps	%xmm0, %xmm0
	leaq	44(%rsp), %rax
	movups	%xmm0, 16(%rax)
	movups	%xmm0, (%rax)
	jmp	.LBBce044a1f_65
.LBBce044a1f_61:
	movq	56(%rsp), %r12
	testq	%r12, %r12
	je	.LBBce044a1f_65
	movq	48(%rsp), %r14
	cmpq	$1, %r12
	je	.LBBce044a1f_64
	leaq	-4(,%r12,4), %rax
	movq	%r14, %rdi
	xorl	%esi, %esi
	movq	%rdx, %rbp
	movq	%rax, %rdx
	callq	memset@PLT
	movq	%rbp, %rdx
.LBBce044a1f_64:
	movl	$0, -4(%r14,%r12,4)
.LBBce044a1f_65:
	movq	$0, 32(%rsp)
	leaq	24(%rsp), %rdi
	movl	$1, %esi
	movq	16(%rsp), %rcx
	callq	hll_coupons.filling.put_by_cycles.5da326502419fe7c
	testb	%al, %al
	je	.LBBce044a1f_66
	cmpb	$0, 24(%rbx)
	je	.LBBce044a1f_80
	movq	32(%rbx), %rax
	movl	$0, (%rax,%r13,4)
	jmp	.LBBce044a1f_82
.LBBce044a1f_33:
	movl	$1, %ecx
	xorl	%r12d, %r12d
	jmp	.LBBce044a1f_67
.LBBce044a1f_97:
	movl	%r15d, 28(%rbx,%rcx,4)
.LBBce044a1f_99:
	incq	16(%rbx)
	jmp	.LBBce044a1f_100
.LBBce044a1f_5:
	xorl	%eax, %eax
.LBBce044a1f_7:
	leaq	8(%rbx), %rdi
	movl	12(%rsp), %r13d
	movl	$0, (%r10,%rax,4)
	incq	%rax
	movl	$1, %ecx
	jmp	.LBBce044a1f_8
.LBBce044a1f_66:
	movq	24(%rsp), %r14
	movq	32(%rsp), %r12
	movzbl	40(%rsp), %ecx
.LBBce044a1f_67:
	leaq	44(%rsp), %r11
.LBBce044a1f_68:
	movq	32(%rbx), %rdi
	movq	48(%rbx), %rdx
	movq	%r14, 8(%rbx)
	movq	%r12, 16(%rbx)
	cmpb	$0, 24(%rbx)
	movl	%ecx, 24(%rbx)
	movups	(%r11), %xmm0
	movups	16(%r11), %xmm1
	movups	%xmm0, 28(%rbx)
	movups	%xmm1, 44(%rbx)
	movl	12(%rsp), %r13d
	je	.LBBce044a1f_71
	testq	%rdx, %rdx
	je	.LBBce044a1f_71
	callq	rattle_dealloc@PLT
.LBBce044a1f_71:
	movq	$0, 64(%rbx)
	movq	80(%rbx), %r15
	testq	%r15, %r15
	je	.LBBce044a1f_100
	leaq	80(%rbx), %rax
	movq	72(%rbx), %r13
	movq	88(%rbx), %rcx
	movq	%rcx, 16(%rsp)
	xorps	%xmm0, %xmm0
	movups	%xmm0, (%rax)
	leaq	64(%r13), %rbp
	jmp	.LBBce044a1f_73
	.p2align	4
.LBBce044a1f_77:
	addq	$72, %rbp
	decq	%r15
	je	.LBBce044a1f_78
.LBBce044a1f_73:
	movq	-16(%rbp), %r14
	movq	(%rbp), %r12
	cmpq	$0, -24(%rbp)
	je	.LBBce044a1f_75
	movq	-40(%rbp), %rdi
	callq	rattle_dealloc@PLT
.LBBce044a1f_75:
	testq	%r12, %r12
	je	.LBBce044a1f_77
	movq	%r14, %rdi
	callq	rattle_dealloc@PLT
	jmp	.LBBce044a1f_77
.LBBce044a1f_100:
	xorl	%eax, %eax
.LBBce044a1f_101:
	cmpb	$1, 96(%rbx)
	jne	.LBBce044a1f_103
.LBBce044a1f_102:
	movq	104(%rbx), %rdx
	movl	%r13d, %esi
	shrl	$6, %esi
	movl	$1, %edi
	movl	%r13d, %ecx
	shlq	%cl, %rdi
	orq	%rdi, (%rdx,%rsi,8)
.LBBce044a1f_103:
	xorl	%edx, %edx
	jmp	.LBBce044a1f_104
.LBBce044a1f_78:
	movq	%r13, 72(%rbx)
	movq	$0, 80(%rbx)
	movq	16(%rsp), %rax
	movq	%rax, 88(%rbx)
	xorl	%eax, %eax
	movl	12(%rsp), %r13d
	cmpb	$1, 96(%rbx)
	je	.LBBce044a1f_102
	jmp	.LBBce044a1f_103
.LBBce044a1f_80:
	movl	$0, 28(%rbx,%r13,4)
.LBBce044a1f_82:
	decq	16(%rbx)
	cmpb	$0, 40(%rsp)
	je	.LBBce044a1f_85
	cmpq	$0, 64(%rsp)
	je	.LBBce044a1f_85
	movq	48(%rsp), %rdi
	movl	%edx, %ebx
	callq	rattle_dealloc@PLT
	movl	%ebx, %edx
.LBBce044a1f_85:
	movb	$1, %al
.LBBce044a1f_104:
	addq	$88, %rsp
	popq	%rbx
	popq	%r12
	popq	%r13
	popq	%r14
	popq	%r15
	popq	%rbp
	retq
.Lfunc_endce044a1f:
	.size	hll_registers.exception_map.fill_value.5da326502419fe7c, .Lfunc_endce044a1f-hll_registers.exception_map.fill_value.5da326502419fe7c

	.section	.text.hll_registers.exception_map.built.5da326502419fe7c,"ax",@progbits
	.p2align	4
	.type	hll_registers.exception_map.built.5da326502419fe7c,@function
hll_registers.exception_map.built.5da326502419fe7c:
	pushq	%rbp
	pushq	%r15
	pushq	%r14
	pushq	%r13
	pushq	%r12
	pushq	%rbx
	subq	$152, %rsp
	movq	%rdi, %rbx
	movzbl	(%rsi), %eax
	movq	8(%rsi), %rdi
	movzbl	32(%rsi), %edx
	movq	40(%rsi), %rcx
	movq	56(%rsi), %r8
	movups	48(%rsi), %xmm0
	movaps	%xmm0, 112(%rsp)
	movsd	64(%rsi), %xmm0
	movaps	%xmm0, 96(%rsp)
	movq	80(%rsi), %r12
	movq	88(%rsi), %r15
	movq	96(%rsi), %r14
	movzbl	104(%rsi), %r11d
	movq	112(%rsi), %r9
	movq	128(%rsi), %r10
	xorps	%xmm0, %xmm0
	movaps	%xmm0, 80(%rsp)
	cmpq	$1, %rax
	jne	.LBB123467f5_1
	movq	%r14, 72(%rsp)
	movb	%r11b, 6(%rsp)
	movq	%r10, 64(%rsp)
	movq	%r9, 40(%rsp)
	movq	%r8, 32(%rsp)
	movq	%rdi, 48(%rsp)
	movb	%dl, 7(%rsp)
	movq	%rcx, 24(%rsp)
	movq	%rax, 56(%rsp)
	movups	16(%rsi), %xmm0
	movaps	%xmm0, 128(%rsp)
	movl	33(%rsi), %eax
	movl	36(%rsi), %ecx
	movl	%eax, 16(%rsp)
	movl	%ecx, 19(%rsp)
	testq	%r15, %r15
	je	.LBB123467f5_9
	leaq	64(%r12), %rbp
	jmp	.LBB123467f5_4
	.p2align	4
.LBB123467f5_8:
	addq	$72, %rbp
	decq	%r15
	je	.LBB123467f5_9
.LBB123467f5_4:
	movq	-16(%rbp), %r13
	movq	(%rbp), %r14
	cmpq	$0, -24(%rbp)
	je	.LBB123467f5_6
	movq	-40(%rbp), %rdi
	callq	rattle_dealloc@PLT
.LBB123467f5_6:
	testq	%r14, %r14
	je	.LBB123467f5_8
	movq	%r13, %rdi
	callq	rattle_dealloc@PLT
	jmp	.LBB123467f5_8
.LBB123467f5_1:
	xorl	%edx, %edx
	jmp	.LBB123467f5_16
.LBB123467f5_9:
	cmpq	$0, 72(%rsp)
	je	.LBB123467f5_11
	movq	%r12, %rdi
	callq	rattle_dealloc@PLT
.LBB123467f5_11:
	cmpb	$1, 6(%rsp)
	movzbl	7(%rsp), %ebp
	jne	.LBB123467f5_14
	cmpq	$0, 64(%rsp)
	je	.LBB123467f5_14
	movq	40(%rsp), %rdi
	callq	rattle_dealloc@PLT
.LBB123467f5_14:
	movaps	128(%rsp), %xmm0
	movaps	%xmm0, 80(%rsp)
	movl	16(%rsp), %eax
	movl	19(%rsp), %ecx
	movl	%eax, 8(%rsp)
	movl	%ecx, 11(%rsp)
	movl	$64, %edi
	movl	$8, %esi
	callq	rattle_alloc@PLT
	testb	$1, %al
	je	.LBB123467f5_17
	movq	48(%rsp), %rax
	movq	%rax, (%rdx)
	movaps	80(%rsp), %xmm0
	movups	%xmm0, 8(%rdx)
	movb	%bpl, 24(%rdx)
	movl	8(%rsp), %eax
	movl	11(%rsp), %ecx
	movl	%eax, 25(%rdx)
	movl	%ecx, 28(%rdx)
	movq	24(%rsp), %rax
	movq	%rax, 32(%rdx)
	movaps	112(%rsp), %xmm0
	movups	%xmm0, 40(%rdx)
	movaps	96(%rsp), %xmm0
	movlps	%xmm0, 56(%rdx)
	movq	56(%rsp), %rax
.LBB123467f5_16:
	movw	$0, (%rbx)
	movq	%rax, 8(%rbx)
	movq	%rdx, 16(%rbx)
	jmp	.LBB123467f5_21
.LBB123467f5_17:
	testb	%bpl, %bpl
	je	.LBB123467f5_20
	cmpq	$0, 32(%rsp)
	je	.LBB123467f5_20
	movq	24(%rsp), %rdi
	callq	rattle_dealloc@PLT
.LBB123467f5_20:
	movw	$3073, (%rbx)
	xorps	%xmm0, %xmm0
	movups	%xmm0, 8(%rbx)
.LBB123467f5_21:
	addq	$152, %rsp
	popq	%rbx
	popq	%r12
	popq	%r13
	popq	%r14
	popq	%r15
	popq	%rbp
	retq
.Lfunc_end123467f5:
	.size	hll_registers.exception_map.built.5da326502419fe7c, .Lfunc_end123467f5-hll_registers.exception_map.built.5da326502419fe7c

	.section	.rodata.cst16,"aM",@progbits,16
	.p2align	4, 0x0
.LCPI80771e73_0:
	.zero	16,15
.LCPI80771e73_1:
	.zero	16,1
.LCPI80771e73_2:
	.zero	16,240
	.section	.text.hll_kernels.nibbles.some_mark_nibbles_in,"ax",@progbits
	.p2align	4
	.type	hll_kernels.nibbles.some_mark_nibbles_in,@function
hll_kernels.nibbles.some_mark_nibbles_in:
	movdqa	.LCPI80771e73_0(%rip), %xmm0
	movdqu	(%rdi), %xmm3
	movdqu	16(%rdi), %xmm5
	movdqu	32(%rdi), %xmm4
	movdqu	48(%rdi), %xmm1
	movdqa	.LCPI80771e73_2(%rip), %xmm2
	movdqa	%xmm3, %xmm6
	pmaxub	%xmm2, %xmm6
	pcmpeqb	%xmm3, %xmm6
	pand	%xmm0, %xmm3
	movdqa	%xmm5, %xmm7
	pmaxub	%xmm2, %xmm7
	pcmpeqb	%xmm5, %xmm7
	pand	%xmm0, %xmm5
	pcmpeqb	%xmm0, %xmm3
	movdqa	.LCPI80771e73_1(%rip), %xmm8
	pand	%xmm8, %xmm3
	pcmpeqb	%xmm0, %xmm5
	pand	%xmm8, %xmm5
	psubb	%xmm6, %xmm3
	psubb	%xmm7, %xmm5
	movdqa	%xmm4, %xmm6
	pmaxub	%xmm2, %xmm6
	pcmpeqb	%xmm4, %xmm6
	pand	%xmm0, %xmm4
	pmaxub	%xmm1, %xmm2
	pcmpeqb	%xmm1, %xmm2
	pand	%xmm0, %xmm1
	pcmpeqb	%xmm0, %xmm4
	pcmpeqb	%xmm0, %xmm1
	psubb	%xmm6, %xmm3
	psubb	%xmm4, %xmm3
	psubb	%xmm2, %xmm5
	psubb	%xmm1, %xmm5
	paddb	%xmm3, %xmm5
	pshufd	$238, %xmm5, %xmm0
	paddb	%xmm5, %xmm0
	pxor	%xmm1, %xmm1
	psadbw	%xmm0, %xmm1
	movd	%xmm1, %eax
	retq
.Lfunc_end80771e73:
	.size	hll_kernels.nibbles.some_mark_nibbles_in, .Lfunc_end80771e73-hll_kernels.nibbles.some_mark_nibbles_in

	.section	.rodata.cst16,"aM",@progbits,16
	.p2align	4, 0x0
.LCPI03e20629_0:
	.zero	16,15
.LCPI03e20629_1:
	.byte	15
	.byte	15
	.byte	15
	.byte	15
	.byte	15
	.byte	15
	.byte	15
	.byte	15
	.zero	1
	.zero	1
	.zero	1
	.zero	1
	.zero	1
	.zero	1
	.zero	1
	.zero	1
.LCPI03e20629_2:
	.zero	16,240
	.section	.text.hll_registers.exception_map.max_with_registers.f8e44fc08f8602d9,"ax",@progbits
	.p2align	4
	.type	hll_registers.exception_map.max_with_registers.f8e44fc08f8602d9,@function
hll_registers.exception_map.max_with_registers.f8e44fc08f8602d9:
	pushq	%rbp
	pushq	%r15
	pushq	%r14
	pushq	%r13
	pushq	%r12
	pushq	%rbx
	movq	%rdx, -32(%rsp)
	movl	%edx, %r12d
	shrl	%r12d
	movq	%rsi, %r14
	shrq	%r14
	leaq	(%rcx,%r12), %r11
	movq	%rsi, -40(%rsp)
	movq	%rsi, %rbx
	shrq	$6, %rbx
	movq	%r14, %r13
	andq	$-32, %r13
	movl	%r14d, %r15d
	andl	$31, %r15d
	testq	%rbx, %rbx
	je	.LBB03e20629_3
	movzbl	%r9b, %eax
	movd	%eax, %xmm0
	pxor	%xmm1, %xmm1
	pshufb	%xmm1, %xmm0
	leaq	(%r12,%rcx), %rax
	addq	$16, %rax
	xorl	%r10d, %r10d
	.p2align	4
.LBB03e20629_2:
	movdqu	-16(%rax,%r10), %xmm2
	movdqa	.LCPI03e20629_0(%rip), %xmm1
	movdqa	%xmm2, %xmm3
	pand	%xmm1, %xmm3
	paddb	%xmm0, %xmm3
	psrlw	$4, %xmm2
	pand	%xmm1, %xmm2
	paddb	%xmm0, %xmm2
	movdqa	%xmm3, %xmm4
	punpcklbw	%xmm2, %xmm4
	punpckhbw	%xmm2, %xmm3
	movdqu	(%rdi,%r10,2), %xmm2
	pmaxub	%xmm4, %xmm2
	movdqu	16(%rdi,%r10,2), %xmm4
	pmaxub	%xmm3, %xmm4
	movdqu	32(%rdi,%r10,2), %xmm3
	movdqu	48(%rdi,%r10,2), %xmm5
	movdqu	%xmm2, (%rdi,%r10,2)
	movdqu	%xmm4, 16(%rdi,%r10,2)
	movdqu	(%rax,%r10), %xmm2
	movdqa	%xmm2, %xmm4
	pand	%xmm1, %xmm4
	paddb	%xmm0, %xmm4
	psrlw	$4, %xmm2
	pand	%xmm1, %xmm2
	paddb	%xmm0, %xmm2
	movdqa	%xmm4, %xmm1
	punpcklbw	%xmm2, %xmm1
	pmaxub	%xmm3, %xmm1
	punpckhbw	%xmm2, %xmm4
	pmaxub	%xmm5, %xmm4
	movdqu	%xmm1, 32(%rdi,%r10,2)
	movdqu	%xmm4, 48(%rdi,%r10,2)
	addq	$32, %r10
	cmpq	%r10, %r13
	jne	.LBB03e20629_2
.LBB03e20629_3:
	leaq	(%r11,%r13), %rax
	movq	-40(%rsp), %r10
	andq	$-64, %r10
	testq	%r15, %r15
	je	.LBB03e20629_13
	cmpl	$8, %r15d
	jae	.LBB03e20629_6
	xorl	%r14d, %r14d
	jmp	.LBB03e20629_11
.LBB03e20629_6:
	movq	%r10, %rsi
	leaq	(%rdi,%r10), %rbp
	leaq	(,%r15,2), %rdx
	addq	%rbp, %rdx
	addq	%r13, %rcx
	addq	%r15, %r12
	addq	%rcx, %r12
	cmpq	%r12, %rbp
	setb	%cl
	cmpq	%rdx, %rax
	setb	%dl
	testb	%dl, %cl
	je	.LBB03e20629_8
	xorl	%r14d, %r14d
	movq	%rsi, %r10
	jmp	.LBB03e20629_11
.LBB03e20629_8:
	andl	$24, %r14d
	movzbl	%r9b, %ecx
	movd	%ecx, %xmm0
	punpcklbw	%xmm0, %xmm0
	pshuflw	$0, %xmm0, %xmm0
	xorl	%ecx, %ecx
	.p2align	4
.LBB03e20629_9:
	movq	(%rax,%rcx), %xmm1
	movdqa	.LCPI03e20629_1(%rip), %xmm3
	pand	%xmm1, %xmm3
	paddb	%xmm0, %xmm3
	movzbl	(%rbp,%rcx,2), %edx
	movd	%edx, %xmm2
	pinsrb	$1, 2(%rbp,%rcx,2), %xmm2
	pinsrb	$2, 4(%rbp,%rcx,2), %xmm2
	pinsrb	$3, 6(%rbp,%rcx,2), %xmm2
	pinsrb	$4, 8(%rbp,%rcx,2), %xmm2
	pinsrb	$5, 10(%rbp,%rcx,2), %xmm2
	pinsrb	$6, 12(%rbp,%rcx,2), %xmm2
	pinsrb	$7, 14(%rbp,%rcx,2), %xmm2
	pmaxub	%xmm3, %xmm2
	psrlw	$4, %xmm1
	pand	.LCPI03e20629_0(%rip), %xmm1
	movzbl	1(%rbp,%rcx,2), %edx
	movd	%edx, %xmm3
	pinsrb	$1, 3(%rbp,%rcx,2), %xmm3
	pinsrb	$2, 5(%rbp,%rcx,2), %xmm3
	pinsrb	$3, 7(%rbp,%rcx,2), %xmm3
	pinsrb	$4, 9(%rbp,%rcx,2), %xmm3
	pinsrb	$5, 11(%rbp,%rcx,2), %xmm3
	pinsrb	$6, 13(%rbp,%rcx,2), %xmm3
	paddb	%xmm0, %xmm1
	pinsrb	$7, 15(%rbp,%rcx,2), %xmm3
	pmaxub	%xmm1, %xmm3
	punpcklbw	%xmm3, %xmm2
	movdqu	%xmm2, (%rbp,%rcx,2)
	addq	$8, %rcx
	cmpq	%rcx, %r14
	jne	.LBB03e20629_9
	cmpl	%r14d, %r15d
	movq	%rsi, %r10
	je	.LBB03e20629_13
.LBB03e20629_11:
	leaq	(%r10,%rdi), %rcx
	incq	%rcx
	.p2align	4
.LBB03e20629_12:
	movzbl	(%rax,%r14), %edx
	andb	$15, %dl
	addb	%r9b, %dl
	movzbl	-1(%rcx,%r14,2), %esi
	movzbl	%dl, %edx
	cmpb	%sil, %dl
	cmoval	%edx, %esi
	movb	%sil, -1(%rcx,%r14,2)
	movzbl	(%rax,%r14), %edx
	shrb	$4, %dl
	addb	%r9b, %dl
	movzbl	(%rcx,%r14,2), %esi
	movzbl	%dl, %edx
	cmpb	%sil, %dl
	cmoval	%edx, %esi
	movb	%sil, (%rcx,%r14,2)
	incq	%r14
	cmpq	%r14, %r15
	jne	.LBB03e20629_12
.LBB03e20629_13:
	cmpb	$1, (%r8)
	jne	.LBB03e20629_61
	movq	8(%r8), %r8
	movzbl	8(%r8), %ecx
	movl	$4, %edx
	shlq	%cl, %rdx
	movq	-40(%rsp), %rcx
	shrq	$3, %rcx
	cmpq	$129, %rcx
	movl	$128, %esi
	cmovaeq	%rcx, %rsi
	cmpq	%rsi, %rdx
	jbe	.LBB03e20629_33
	testq	%rbx, %rbx
	je	.LBB03e20629_31
	xorl	%ebp, %ebp
	movq	%r10, -16(%rsp)
	movq	%r11, -24(%rsp)
.LBB03e20629_17:
	movq	%rbp, %r15
	shlq	$5, %r15
	movdqu	(%r11,%r15), %xmm0
	movdqu	16(%r11,%r15), %xmm1
	movdqa	.LCPI03e20629_0(%rip), %xmm2
	movdqa	.LCPI03e20629_2(%rip), %xmm3
	movdqa	%xmm1, %xmm4
	pmaxub	%xmm3, %xmm4
	pmaxub	%xmm0, %xmm3
	pcmpeqb	%xmm0, %xmm3
	pand	%xmm2, %xmm0
	pcmpeqb	%xmm1, %xmm4
	pand	%xmm2, %xmm1
	pcmpeqb	%xmm2, %xmm1
	pcmpeqb	%xmm2, %xmm0
	por	%xmm1, %xmm4
	por	%xmm0, %xmm3
	por	%xmm4, %xmm3
	pmovmskb	%xmm3, %ecx
	testl	%ecx, %ecx
	je	.LBB03e20629_30
	addq	%r11, %r15
	movq	%rbp, %r14
	shlq	$6, %r14
	leaq	63(%r14), %rsi
	movq	%r14, %r12
	movq	%rbp, -8(%rsp)
	jmp	.LBB03e20629_21
.LBB03e20629_19:
	shrl	$26, %ebp
	movzbl	(%rdi,%r12), %ecx
	cmpb	%cl, %bpl
	cmovbel	%ecx, %ebp
	movb	%bpl, (%rdi,%r12)
	movq	-16(%rsp), %r10
	movq	-24(%rsp), %r11
	movq	-8(%rsp), %rbp
	leaq	63(%r14), %rsi
.LBB03e20629_20:
	cmpq	%rsi, %r12
	leaq	1(%r12), %r12
	je	.LBB03e20629_30
.LBB03e20629_21:
	movq	%r12, %rcx
	subq	%r14, %rcx
	shrq	%rcx
	movzbl	(%r15,%rcx), %ecx
	movl	%ecx, %edx
	andb	$15, %dl
	shrb	$4, %cl
	testb	$1, %r12b
	movzbl	%dl, %edx
	movzbl	%cl, %ecx
	cmovel	%edx, %ecx
	cmpb	$15, %cl
	jne	.LBB03e20629_20
	movzbl	24(%r8), %ecx
	movb	%cl, -41(%rsp)
	testb	%cl, %cl
	je	.LBB03e20629_24
	movq	32(%r8), %r13
	movq	40(%r8), %rcx
	cmpq	$256, %rcx
	movl	$256, %r11d
	cmovbq	%rcx, %r11
	jmp	.LBB03e20629_25
.LBB03e20629_24:
	movl	$8, %r11d
	leaq	28(%r8), %r13
.LBB03e20629_25:
	movq	-32(%rsp), %rcx
	leal	(%rcx,%r12), %edx
	movzbl	8(%r8), %ecx
	movl	%edx, %r9d
	andl	$67108863, %r9d
	shrl	%cl, %r9d
	movq	$-1, %rsi
	shlq	%cl, %rsi
	testq	%r11, %r11
	je	.LBB03e20629_48
	orl	$1, %r9d
	notq	%rsi
	movl	%edx, %ecx
	.p2align	4
.LBB03e20629_27:
	andq	%rsi, %rcx
	movl	(%r13,%rcx,4), %ebp
	testl	%ebp, %ebp
	je	.LBB03e20629_19
	movl	%ebp, %r10d
	andl	$67108863, %r10d
	cmpl	%edx, %r10d
	je	.LBB03e20629_19
	addq	%r9, %rcx
	decq	%r11
	jne	.LBB03e20629_27
	jmp	.LBB03e20629_48
.LBB03e20629_30:
	incq	%rbp
	cmpq	%rbx, %rbp
	jne	.LBB03e20629_17
.LBB03e20629_31:
	testb	$62, -40(%rsp)
	je	.LBB03e20629_61
	movq	-40(%rsp), %r9
	andq	$-2, %r9
	movq	%r10, %rbx
	jmp	.LBB03e20629_37
.LBB03e20629_33:
	movzbl	24(%r8), %r11d
	testb	%r11b, %r11b
	jne	.LBB03e20629_47
.LBB03e20629_49:
	addq	$28, %r8
	movl	$8, %eax
	jmp	.LBB03e20629_50
.LBB03e20629_48:
	movzbl	-41(%rsp), %r11d
	testb	%r11b, %r11b
	jne	.LBB03e20629_47
	jmp	.LBB03e20629_49
.LBB03e20629_35:
	shrl	$26, %r10d
	movzbl	(%rdi,%rbx), %ecx
	cmpb	%cl, %r10b
	cmovbel	%ecx, %r10d
	movb	%r10b, (%rdi,%rbx)
	movq	%r13, %r10
.LBB03e20629_36:
	incq	%rbx
	cmpq	%r9, %rbx
	je	.LBB03e20629_61
.LBB03e20629_37:
	movq	%rbx, %rcx
	subq	%r10, %rcx
	shrq	%rcx
	movzbl	(%rax,%rcx), %ecx
	movl	%ecx, %edx
	andb	$15, %dl
	shrb	$4, %cl
	testb	$1, %bl
	movzbl	%dl, %edx
	movzbl	%cl, %ecx
	cmovel	%edx, %ecx
	cmpb	$15, %cl
	jne	.LBB03e20629_36
	movzbl	24(%r8), %r11d
	testb	%r11b, %r11b
	je	.LBB03e20629_40
	movq	32(%r8), %r14
	movq	40(%r8), %rcx
	cmpq	$256, %rcx
	movl	$256, %edx
	cmovbq	%rcx, %rdx
	jmp	.LBB03e20629_41
.LBB03e20629_40:
	movl	$8, %edx
	leaq	28(%r8), %r14
.LBB03e20629_41:
	movq	-32(%rsp), %rcx
	leal	(%rcx,%rbx), %r15d
	movzbl	8(%r8), %ecx
	movl	%r15d, %esi
	andl	$67108863, %esi
	shrl	%cl, %esi
	movq	$-1, %r12
	shlq	%cl, %r12
	testq	%rdx, %rdx
	je	.LBB03e20629_46
	movq	%r10, %r13
	orl	$1, %esi
	notq	%r12
	movl	%r15d, %ecx
	.p2align	4
.LBB03e20629_43:
	andq	%r12, %rcx
	movl	(%r14,%rcx,4), %r10d
	testl	%r10d, %r10d
	je	.LBB03e20629_35
	movl	%r10d, %ebp
	andl	$67108863, %ebp
	cmpl	%r15d, %ebp
	je	.LBB03e20629_35
	addq	%rsi, %rcx
	decq	%rdx
	jne	.LBB03e20629_43
.LBB03e20629_46:
	testb	%r11b, %r11b
	je	.LBB03e20629_49
.LBB03e20629_47:
	movq	40(%r8), %rax
	movq	32(%r8), %r8
.LBB03e20629_50:
	cmpq	$4, %rax
	jae	.LBB03e20629_56
	.p2align	4
.LBB03e20629_51:
	testq	%rax, %rax
	je	.LBB03e20629_61
	decq	%rax
	movl	(%r8), %ecx
	addq	$4, %r8
	testq	%rcx, %rcx
	je	.LBB03e20629_51
	movl	%ecx, %edx
	andl	$67108863, %edx
	cmpl	-32(%rsp), %edx
	jb	.LBB03e20629_50
	movl	-32(%rsp), %esi
	subq	%rsi, %rdx
	cmpq	%rdx, -40(%rsp)
	jbe	.LBB03e20629_50
	shrl	$26, %ecx
	movzbl	(%rdi,%rdx), %esi
	movzbl	%cl, %ecx
	cmpb	%sil, %cl
	cmoval	%ecx, %esi
	movb	%sil, (%rdi,%rdx)
	jmp	.LBB03e20629_50
	.p2align	4
.LBB03e20629_56:
	cmpl	$0, (%r8)
	jne	.LBB03e20629_51
	cmpl	$0, 4(%r8)
	jne	.LBB03e20629_51
	cmpl	$0, 8(%r8)
	jne	.LBB03e20629_51
	cmpl	$0, 12(%r8)
	jne	.LBB03e20629_51
	addq	$16, %r8
	addq	$-4, %rax
	cmpq	$3, %rax
	ja	.LBB03e20629_56
	jmp	.LBB03e20629_51
.LBB03e20629_61:
	popq	%rbx
	popq	%r12
	popq	%r13
	popq	%r14
	popq	%r15
	popq	%rbp
	retq
.Lfunc_end03e20629:
	.size	hll_registers.exception_map.max_with_registers.f8e44fc08f8602d9, .Lfunc_end03e20629-hll_registers.exception_map.max_with_registers.f8e44fc08f8602d9

	.section	.rodata.cst16,"aM",@progbits,16
	.p2align	4, 0x0
.LCPI4829529f_0:
	.zero	16,16
.LCPI4829529f_1:
	.byte	128
	.byte	64
	.byte	32
	.byte	16
	.byte	8
	.byte	4
	.byte	2
	.byte	1
	.byte	0
	.byte	0
	.byte	0
	.byte	0
	.byte	0
	.byte	0
	.byte	0
	.byte	0
.LCPI4829529f_2:
	.zero	16,1
.LCPI4829529f_3:
	.short	1
	.short	1
	.short	1
	.short	1
	.short	1
	.short	1
	.short	1
	.short	1
.LCPI4829529f_4:
	.byte	0
	.byte	0
	.byte	0
	.byte	0
	.byte	0
	.byte	0
	.byte	0
	.byte	0
	.byte	128
	.byte	64
	.byte	32
	.byte	16
	.byte	8
	.byte	4
	.byte	2
	.byte	1
	.section	.text.hll_kernels.kernels.weight_sums,"ax",@progbits
	.p2align	4
	.type	hll_kernels.kernels.weight_sums,@function
hll_kernels.kernels.weight_sums:
	pushq	%rbp
	pushq	%r15
	pushq	%r14
	pushq	%r13
	pushq	%r12
	pushq	%rbx
	subq	$152, %rsp
	movq	%rdi, %rbx
	movq	%rsi, %rbp
	shrq	$6, %rbp
	movl	%esi, %r15d
	andl	$63, %r15d
	testq	%rbp, %rbp
	je	.LBB4829529f_1
	movq	%rsi, 8(%rsp)
	leaq	48(%rbx), %r12
	pxor	%xmm14, %xmm14
	xorl	%r11d, %r11d
	pxor	%xmm15, %xmm15
	pxor	%xmm12, %xmm12
	pxor	%xmm13, %xmm13
	xorl	%r14d, %r14d
	.p2align	4
.LBB4829529f_3:
	movdqu	-48(%r12), %xmm6
	movdqu	-32(%r12), %xmm5
	movdqu	-16(%r12), %xmm4
	movdqu	(%r12), %xmm3
	movdqa	%xmm5, %xmm0
	pmaxub	%xmm3, %xmm0
	movdqa	%xmm6, %xmm1
	pmaxub	%xmm4, %xmm1
	pmaxub	%xmm0, %xmm1
	movdqa	.LCPI4829529f_0(%rip), %xmm0
	pmaxub	%xmm1, %xmm0
	pcmpeqb	%xmm1, %xmm0
	pmovmskb	%xmm0, %eax
	testl	%eax, %eax
	jne	.LBB4829529f_5
	movq	.LCPI4829529f_1(%rip), %xmm2
	movdqa	%xmm2, %xmm0
	pshufb	%xmm6, %xmm0
	movdqa	%xmm2, %xmm1
	pshufb	%xmm5, %xmm1
	movdqa	%xmm2, %xmm7
	pshufb	%xmm4, %xmm7
	pshufb	%xmm3, %xmm2
	movdqa	.LCPI4829529f_2(%rip), %xmm9
	pmaddubsw	%xmm9, %xmm0
	movdqa	.LCPI4829529f_3(%rip), %xmm11
	pmaddwd	%xmm11, %xmm0
	pmaddubsw	%xmm9, %xmm1
	pmaddwd	%xmm11, %xmm1
	pmaddubsw	%xmm9, %xmm7
	pmaddwd	%xmm11, %xmm7
	pmaddubsw	%xmm9, %xmm2
	pmaddwd	%xmm11, %xmm2
	movdqa	.LCPI4829529f_4(%rip), %xmm10
	movdqa	%xmm10, %xmm8
	pshufb	%xmm6, %xmm8
	movdqa	%xmm10, %xmm6
	pshufb	%xmm5, %xmm6
	movdqa	%xmm10, %xmm5
	pshufb	%xmm4, %xmm5
	pshufb	%xmm3, %xmm10
	pmaddubsw	%xmm9, %xmm8
	pmaddwd	%xmm11, %xmm8
	pmaddubsw	%xmm9, %xmm6
	pmaddwd	%xmm11, %xmm6
	pmaddubsw	%xmm9, %xmm5
	pmaddwd	%xmm11, %xmm5
	pmaddubsw	%xmm9, %xmm10
	pmaddwd	%xmm11, %xmm10
	paddd	%xmm14, %xmm0
	paddd	%xmm7, %xmm0
	paddd	%xmm15, %xmm1
	paddd	%xmm2, %xmm1
	paddd	%xmm12, %xmm8
	paddd	%xmm5, %xmm8
	paddd	%xmm13, %xmm6
	paddd	%xmm10, %xmm6
	movdqa	%xmm8, %xmm12
	movdqa	%xmm6, %xmm13
	movdqa	%xmm0, %xmm14
	movdqa	%xmm1, %xmm15
	addq	$64, %r12
	decq	%rbp
	jne	.LBB4829529f_3
	jmp	.LBB4829529f_7
.LBB4829529f_5:
	movdqa	%xmm6, 80(%rsp)
	movdqa	%xmm5, 96(%rsp)
	movdqa	%xmm4, 112(%rsp)
	movdqa	%xmm3, 128(%rsp)
	leaq	80(%rsp), %rdi
	movq	%r11, %r13
	movdqa	%xmm12, 64(%rsp)
	movdqa	%xmm13, 48(%rsp)
	movdqa	%xmm14, 32(%rsp)
	movdqa	%xmm15, 16(%rsp)
	callq	hll_kernels.kernels.block_sums_above_least
	movdqa	16(%rsp), %xmm15
	movdqa	32(%rsp), %xmm14
	movdqa	48(%rsp), %xmm13
	movdqa	64(%rsp), %xmm12
	movq	%r13, %r11
	addq	%rax, %r14
	addq	%rdx, %r11
	addq	$64, %r12
	decq	%rbp
	jne	.LBB4829529f_3
.LBB4829529f_7:
	paddd	%xmm15, %xmm14
	pshufd	$238, %xmm14, %xmm0
	paddd	%xmm14, %xmm0
	pshufd	$85, %xmm0, %xmm1
	paddd	%xmm0, %xmm1
	movd	%xmm1, %edi
	shlq	$24, %rdi
	paddd	%xmm13, %xmm12
	pshufd	$238, %xmm12, %xmm0
	paddd	%xmm12, %xmm0
	pshufd	$85, %xmm0, %xmm1
	paddd	%xmm0, %xmm1
	movd	%xmm1, %eax
	shlq	$16, %rax
	movq	8(%rsp), %rsi
	testq	%r15, %r15
	je	.LBB4829529f_9
.LBB4829529f_10:
	andq	$-64, %rsi
	addq	%rsi, %rbx
	xorl	%r8d, %r8d
	xorl	%r9d, %r9d
	xorl	%edx, %edx
	jmp	.LBB4829529f_11
	.p2align	4
.LBB4829529f_12:
	movb	$31, %sil
	subb	%cl, %sil
	movl	$1, %r10d
	movl	%esi, %ecx
	shlq	%cl, %r10
	xorl	%esi, %esi
.LBB4829529f_14:
	addq	%rsi, %rdx
	addq	%r10, %r8
	incq	%r9
	cmpq	%r9, %r15
	je	.LBB4829529f_15
.LBB4829529f_11:
	movzbl	(%rbx,%r9), %ecx
	cmpq	$31, %rcx
	jbe	.LBB4829529f_12
	notb	%cl
	movl	$1, %esi
	shlq	%cl, %rsi
	xorl	%r10d, %r10d
	jmp	.LBB4829529f_14
.LBB4829529f_1:
	xorl	%r14d, %r14d
	xorl	%r11d, %r11d
	xorl	%eax, %eax
	xorl	%edi, %edi
	testq	%r15, %r15
	jne	.LBB4829529f_10
.LBB4829529f_9:
	xorl	%edx, %edx
	xorl	%r8d, %r8d
.LBB4829529f_15:
	addq	%r11, %rdx
	addq	%r8, %rdi
	addq	%r14, %rax
	addq	%rdi, %rax
	addq	$152, %rsp
	popq	%rbx
	popq	%r12
	popq	%r13
	popq	%r14
	popq	%r15
	popq	%rbp
	retq
.Lfunc_end4829529f:
	.size	hll_kernels.kernels.weight_sums, .Lfunc_end4829529f-hll_kernels.kernels.weight_sums

	.section	.rodata.cst16,"aM",@progbits,16
	.p2align	4, 0x0
.LCPI1cf9f437_0:
	.zero	16,16
.LCPI1cf9f437_1:
	.byte	128
	.byte	64
	.byte	32
	.byte	16
	.byte	8
	.byte	4
	.byte	2
	.byte	1
	.byte	0
	.byte	0
	.byte	0
	.byte	0
	.byte	0
	.byte	0
	.byte	0
	.byte	0
.LCPI1cf9f437_2:
	.zero	16,1
.LCPI1cf9f437_3:
	.short	1
	.short	1
	.short	1
	.short	1
	.short	1
	.short	1
	.short	1
	.short	1
.LCPI1cf9f437_4:
	.byte	0
	.byte	0
	.byte	0
	.byte	0
	.byte	0
	.byte	0
	.byte	0
	.byte	0
	.byte	128
	.byte	64
	.byte	32
	.byte	16
	.byte	8
	.byte	4
	.byte	2
	.byte	1
	.section	.text.unlikely.hll_kernels.kernels.block_sums_above_least,"ax",@progbits
	.p2align	4
	.type	hll_kernels.kernels.block_sums_above_least,@function
hll_kernels.kernels.block_sums_above_least:
	movdqu	(%rdi), %xmm3
	movdqu	16(%rdi), %xmm2
	movdqu	32(%rdi), %xmm1
	movdqu	48(%rdi), %xmm0
	movdqa	%xmm2, %xmm4
	pminub	%xmm0, %xmm4
	movdqa	%xmm3, %xmm5
	pminub	%xmm1, %xmm5
	pminub	%xmm4, %xmm5
	movdqa	%xmm5, %xmm4
	psrlw	$8, %xmm4
	pminub	%xmm5, %xmm4
	phminposuw	%xmm4, %xmm4
	movd	%xmm4, %eax
	cmpb	$16, %al
	movl	$16, %edx
	cmovbl	%eax, %edx
	movd	%edx, %xmm4
	pxor	%xmm5, %xmm5
	pshufb	%xmm5, %xmm4
	psubb	%xmm4, %xmm1
	psubb	%xmm4, %xmm3
	psubb	%xmm4, %xmm0
	psubb	%xmm4, %xmm2
	movdqa	%xmm2, %xmm4
	pmaxub	%xmm0, %xmm4
	movdqa	%xmm3, %xmm5
	pmaxub	%xmm1, %xmm5
	pmaxub	%xmm4, %xmm5
	movdqa	.LCPI1cf9f437_0(%rip), %xmm4
	pmaxub	%xmm5, %xmm4
	pcmpeqb	%xmm5, %xmm4
	pmovmskb	%xmm4, %eax
	testl	%eax, %eax
	je	.LBB1cf9f437_1
	pushq	%rax
	callq	hll_kernels.kernels.block_sums_by_windows
	addq	$8, %rsp
	retq
.LBB1cf9f437_1:
	movq	.LCPI1cf9f437_1(%rip), %xmm6
	movdqa	%xmm6, %xmm5
	pshufb	%xmm3, %xmm5
	movdqa	%xmm6, %xmm4
	pshufb	%xmm2, %xmm4
	movdqa	%xmm6, %xmm7
	pshufb	%xmm1, %xmm7
	pshufb	%xmm0, %xmm6
	movdqa	.LCPI1cf9f437_2(%rip), %xmm8
	pmaddubsw	%xmm8, %xmm5
	movdqa	.LCPI1cf9f437_3(%rip), %xmm9
	pmaddwd	%xmm9, %xmm5
	pmaddubsw	%xmm8, %xmm4
	pmaddwd	%xmm9, %xmm4
	pmaddubsw	%xmm8, %xmm7
	pmaddwd	%xmm9, %xmm7
	pmaddubsw	%xmm8, %xmm6
	pmaddwd	%xmm9, %xmm6
	movdqa	.LCPI1cf9f437_4(%rip), %xmm10
	movdqa	%xmm10, %xmm11
	pshufb	%xmm3, %xmm11
	movdqa	%xmm10, %xmm3
	pshufb	%xmm2, %xmm3
	movdqa	%xmm10, %xmm2
	pshufb	%xmm1, %xmm2
	pshufb	%xmm0, %xmm10
	pmaddubsw	%xmm8, %xmm11
	pmaddwd	%xmm9, %xmm11
	pmaddubsw	%xmm8, %xmm3
	pmaddwd	%xmm9, %xmm3
	pmaddubsw	%xmm8, %xmm2
	pmaddwd	%xmm9, %xmm2
	pmaddubsw	%xmm8, %xmm10
	pmaddwd	%xmm9, %xmm10
	pslld	$8, %xmm7
	paddd	%xmm2, %xmm7
	pslld	$8, %xmm5
	paddd	%xmm11, %xmm5
	paddd	%xmm7, %xmm5
	pslld	$8, %xmm6
	paddd	%xmm10, %xmm6
	pslld	$8, %xmm4
	paddd	%xmm3, %xmm4
	paddd	%xmm6, %xmm4
	paddd	%xmm5, %xmm4
	pshufd	$238, %xmm4, %xmm0
	paddd	%xmm4, %xmm0
	pshufd	$85, %xmm0, %xmm1
	paddd	%xmm0, %xmm1
	movd	%xmm1, %eax
	movb	$16, %cl
	subb	%dl, %cl
	shlq	%cl, %rax
	xorl	%edx, %edx
	retq
.Lfunc_end1cf9f437:
	.size	hll_kernels.kernels.block_sums_above_least, .Lfunc_end1cf9f437-hll_kernels.kernels.block_sums_above_least

	.section	.text.hll_kernels.kernels.block_sums_by_windows,"ax",@progbits
	.p2align	4
	.type	hll_kernels.kernels.block_sums_by_windows,@function
hll_kernels.kernels.block_sums_by_windows:
	pushq	%r14
	pushq	%rbx
	pushq	%rax
	movq	%rdi, %rbx
	xorl	%esi, %esi
	callq	hll_kernels.kernels.half_sum
	movq	%rax, %r14
	movq	%rbx, %rdi
	movl	$32, %esi
	callq	hll_kernels.kernels.half_sum
	movq	%rax, %rdx
	movq	%r14, %rax
	addq	$8, %rsp
	popq	%rbx
	popq	%r14
	retq
.Lfunc_endd6316534:
	.size	hll_kernels.kernels.block_sums_by_windows, .Lfunc_endd6316534-hll_kernels.kernels.block_sums_by_windows

	.section	.rodata.cst16,"aM",@progbits,16
	.p2align	4, 0x0
.LCPI98e77331_0:
	.zero	16,112
.LCPI98e77331_1:
	.zero	16,143
.LCPI98e77331_2:
	.byte	128
	.byte	64
	.byte	32
	.byte	16
	.byte	8
	.byte	4
	.byte	2
	.byte	1
	.byte	0
	.byte	0
	.byte	0
	.byte	0
	.byte	0
	.byte	0
	.byte	0
	.byte	0
.LCPI98e77331_3:
	.zero	16,1
.LCPI98e77331_4:
	.short	1
	.short	1
	.short	1
	.short	1
	.short	1
	.short	1
	.short	1
	.short	1
.LCPI98e77331_5:
	.byte	0
	.byte	0
	.byte	0
	.byte	0
	.byte	0
	.byte	0
	.byte	0
	.byte	0
	.byte	128
	.byte	64
	.byte	32
	.byte	16
	.byte	8
	.byte	4
	.byte	2
	.byte	1
	.section	.text.hll_kernels.kernels.half_sum,"ax",@progbits
	.p2align	4
	.type	hll_kernels.kernels.half_sum,@function
hll_kernels.kernels.half_sum:
	movdqu	(%rdi), %xmm11
	movdqu	16(%rdi), %xmm6
	movdqu	32(%rdi), %xmm5
	movdqu	48(%rdi), %xmm1
	movd	%esi, %xmm0
	pxor	%xmm2, %xmm2
	pshufb	%xmm2, %xmm0
	movdqa	%xmm11, %xmm3
	psubb	%xmm0, %xmm3
	movdqa	%xmm6, %xmm4
	psubb	%xmm0, %xmm4
	movdqa	%xmm5, %xmm12
	psubb	%xmm0, %xmm12
	movdqa	%xmm1, %xmm13
	psubb	%xmm0, %xmm13
	movdqa	.LCPI98e77331_0(%rip), %xmm0
	movdqa	%xmm13, %xmm7
	paddb	%xmm0, %xmm7
	movdqa	%xmm12, %xmm8
	paddb	%xmm0, %xmm8
	movdqa	%xmm4, %xmm9
	paddb	%xmm0, %xmm9
	movdqa	%xmm3, %xmm10
	paddb	%xmm0, %xmm10
	por	%xmm3, %xmm10
	por	%xmm4, %xmm9
	por	%xmm12, %xmm8
	por	%xmm13, %xmm7
	movdqa	.LCPI98e77331_1(%rip), %xmm12
	pand	%xmm12, %xmm7
	pand	%xmm12, %xmm8
	pand	%xmm12, %xmm9
	pand	%xmm12, %xmm10
	leal	16(%rsi), %eax
	movzbl	%al, %eax
	movd	%eax, %xmm3
	pshufb	%xmm2, %xmm3
	psubb	%xmm3, %xmm11
	psubb	%xmm3, %xmm6
	psubb	%xmm3, %xmm5
	psubb	%xmm3, %xmm1
	movdqa	%xmm1, %xmm2
	paddb	%xmm0, %xmm2
	movdqa	%xmm5, %xmm3
	paddb	%xmm0, %xmm3
	movdqa	%xmm6, %xmm4
	paddb	%xmm0, %xmm4
	paddb	%xmm11, %xmm0
	por	%xmm11, %xmm0
	por	%xmm6, %xmm4
	por	%xmm5, %xmm3
	por	%xmm1, %xmm2
	pand	%xmm12, %xmm2
	pand	%xmm12, %xmm3
	pand	%xmm12, %xmm4
	pand	%xmm12, %xmm0
	movq	.LCPI98e77331_2(%rip), %xmm1
	movdqa	%xmm1, %xmm12
	pshufb	%xmm10, %xmm12
	movdqa	%xmm1, %xmm14
	pshufb	%xmm9, %xmm14
	movdqa	%xmm1, %xmm11
	pshufb	%xmm8, %xmm11
	movdqa	%xmm1, %xmm13
	pshufb	%xmm7, %xmm13
	movdqa	.LCPI98e77331_3(%rip), %xmm5
	movdqa	.LCPI98e77331_5(%rip), %xmm6
	movdqa	%xmm6, %xmm15
	pshufb	%xmm10, %xmm15
	movdqa	%xmm6, %xmm10
	pshufb	%xmm9, %xmm10
	movdqa	%xmm6, %xmm9
	pshufb	%xmm8, %xmm9
	movdqa	%xmm6, %xmm8
	pshufb	%xmm7, %xmm8
	movdqa	.LCPI98e77331_4(%rip), %xmm7
	pmaddubsw	%xmm5, %xmm14
	pmaddwd	%xmm7, %xmm14
	pmaddubsw	%xmm5, %xmm10
	pmaddwd	%xmm7, %xmm10
	pslld	$8, %xmm14
	paddd	%xmm10, %xmm14
	pmaddubsw	%xmm5, %xmm13
	pmaddwd	%xmm7, %xmm13
	pmaddubsw	%xmm5, %xmm8
	pmaddwd	%xmm7, %xmm8
	pslld	$8, %xmm13
	paddd	%xmm8, %xmm13
	paddd	%xmm14, %xmm13
	pmaddubsw	%xmm5, %xmm12
	pmaddwd	%xmm7, %xmm12
	pmaddubsw	%xmm5, %xmm15
	pmaddwd	%xmm7, %xmm15
	pslld	$8, %xmm12
	paddd	%xmm15, %xmm12
	pmaddubsw	%xmm5, %xmm11
	pmaddwd	%xmm7, %xmm11
	pmaddubsw	%xmm5, %xmm9
	pmaddwd	%xmm7, %xmm9
	pslld	$8, %xmm11
	paddd	%xmm9, %xmm11
	paddd	%xmm12, %xmm11
	paddd	%xmm13, %xmm11
	pshufd	$238, %xmm11, %xmm8
	paddd	%xmm11, %xmm8
	pshufd	$85, %xmm8, %xmm9
	paddd	%xmm8, %xmm9
	movd	%xmm9, %ecx
	movdqa	%xmm1, %xmm9
	pshufb	%xmm0, %xmm9
	movdqa	%xmm1, %xmm10
	pshufb	%xmm4, %xmm10
	movdqa	%xmm1, %xmm8
	pshufb	%xmm3, %xmm8
	movdqa	%xmm6, %xmm11
	pshufb	%xmm0, %xmm11
	movdqa	%xmm6, %xmm12
	pshufb	%xmm4, %xmm12
	movdqa	%xmm6, %xmm0
	pshufb	%xmm3, %xmm0
	pshufb	%xmm2, %xmm1
	pshufb	%xmm2, %xmm6
	pmaddubsw	%xmm5, %xmm9
	pmaddubsw	%xmm5, %xmm10
	pmaddubsw	%xmm5, %xmm8
	pmaddubsw	%xmm5, %xmm1
	pmaddubsw	%xmm5, %xmm11
	pmaddubsw	%xmm5, %xmm12
	pmaddubsw	%xmm5, %xmm0
	pmaddubsw	%xmm5, %xmm6
	pmaddwd	%xmm7, %xmm9
	pmaddwd	%xmm7, %xmm10
	pmaddwd	%xmm7, %xmm8
	pmaddwd	%xmm7, %xmm1
	pmaddwd	%xmm7, %xmm11
	pmaddwd	%xmm7, %xmm12
	pmaddwd	%xmm7, %xmm0
	pmaddwd	%xmm7, %xmm6
	pslld	$8, %xmm10
	paddd	%xmm12, %xmm10
	pslld	$8, %xmm1
	paddd	%xmm6, %xmm1
	paddd	%xmm10, %xmm1
	pslld	$8, %xmm9
	paddd	%xmm11, %xmm9
	pslld	$8, %xmm8
	paddd	%xmm0, %xmm8
	paddd	%xmm9, %xmm8
	paddd	%xmm1, %xmm8
	pshufd	$238, %xmm8, %xmm0
	paddd	%xmm8, %xmm0
	pshufd	$85, %xmm0, %xmm1
	paddd	%xmm0, %xmm1
	movd	%xmm1, %eax
	shlq	$16, %rcx
	addq	%rcx, %rax
	retq
.Lfunc_end98e77331:
	.size	hll_kernels.kernels.half_sum, .Lfunc_end98e77331-hll_kernels.kernels.half_sum

	.section	.text.hll_coupons.container.Container.image.5da326502419fe7c,"ax",@progbits
	.p2align	4
	.type	hll_coupons.container.Container.image.5da326502419fe7c,@function
hll_coupons.container.Container.image.5da326502419fe7c:
	pushq	%rbp
	pushq	%r15
	pushq	%r14
	pushq	%r13
	pushq	%r12
	pushq	%rbx
	subq	$152, %rsp
	movq	%rcx, %r12
	movq	%rdx, %r15
	movq	%rdi, %rbx
	xorps	%xmm0, %xmm0
	movaps	%xmm0, 96(%rsp)
	movaps	%xmm0, 80(%rsp)
	movaps	%xmm0, 112(%rsp)
	movups	%xmm0, 126(%rsp)
	leaq	80(%rsp), %rdi
	callq	hll_coupons.container.Container.ascending.93a4c1920d65b3d5
	cmpb	$0, 80(%rsp)
	je	.LBB14f62aad_1
	movzbl	81(%rsp), %eax
	movb	$1, (%rbx)
	movb	%al, 1(%rbx)
	jmp	.LBB14f62aad_17
.LBB14f62aad_1:
	movq	88(%rsp), %r14
	movq	96(%rsp), %rbp
	movq	104(%rsp), %rax
	leaq	(,%rbp,4), %r13
	addq	%r12, %r13
	movq	%rax, 48(%rsp)
	je	.LBB14f62aad_2
	js	.LBB14f62aad_14
	movl	$1, %esi
	movq	%r13, %rdi
	callq	rattle_alloc@PLT
	testb	$1, %al
	movq	48(%rsp), %rax
	jne	.LBB14f62aad_5
.LBB14f62aad_14:
	testq	%rax, %rax
	je	.LBB14f62aad_16
.LBB14f62aad_15:
	movq	%r14, %rdi
	callq	rattle_dealloc@PLT
.LBB14f62aad_16:
	movw	$3073, (%rbx)
.LBB14f62aad_17:
	xorps	%xmm0, %xmm0
	movups	%xmm0, 8(%rbx)
	movq	$0, 24(%rbx)
	jmp	.LBB14f62aad_35
.LBB14f62aad_2:
	leaq	15(%rsp), %rdx
.LBB14f62aad_5:
	movq	%rdx, 56(%rsp)
	movq	$0, 64(%rsp)
	movq	%r13, 72(%rsp)
	cmpq	%r13, %r12
	ja	.LBB14f62aad_7
	xorl	%ecx, %ecx
.LBB14f62aad_9:
	leaq	(%rcx,%r12), %r8
	leaq	(%rdx,%rcx), %rdi
	movq	%rdi, %rax
	subq	%r15, %rax
	cmpq	%r12, %rax
	jae	.LBB14f62aad_25
	movl	%r12d, %eax
	andl	$3, %eax
	andl	$12, %r12d
	addq	%rcx, %rdx
	addq	$3, %rdx
	xorl	%ecx, %ecx
	.p2align	4
.LBB14f62aad_11:
	movzbl	(%r15,%rcx), %esi
	movb	%sil, -3(%rdx,%rcx)
	movzbl	1(%r15,%rcx), %esi
	movb	%sil, -2(%rdx,%rcx)
	movzbl	2(%r15,%rcx), %esi
	movb	%sil, -1(%rdx,%rcx)
	movzbl	3(%r15,%rcx), %esi
	movb	%sil, (%rdx,%rcx)
	addq	$4, %rcx
	cmpq	%rcx, %r12
	jne	.LBB14f62aad_11
	testq	%rax, %rax
	je	.LBB14f62aad_26
	.p2align	4
.LBB14f62aad_13:
	movzbl	(%r15,%rcx), %edx
	movb	%dl, (%rdi,%rcx)
	incq	%rcx
	decq	%rax
	jne	.LBB14f62aad_13
	jmp	.LBB14f62aad_26
.LBB14f62aad_25:
	movq	%r15, %rsi
	movq	%r12, %rdx
	movq	%r8, %r15
	callq	memmove@PLT
	movq	%r15, %r8
.LBB14f62aad_26:
	movq	%r8, 64(%rsp)
	movq	%r13, 72(%rsp)
	movq	%r13, 32(%rsp)
	movq	56(%rsp), %rax
	movq	%rax, 16(%rsp)
	movq	64(%rsp), %rax
	movq	%rax, 24(%rsp)
	testq	%rbp, %rbp
	je	.LBB14f62aad_32
	movq	24(%rsp), %rax
	movq	32(%rsp), %rcx
	xorl	%r15d, %r15d
	jmp	.LBB14f62aad_28
	.p2align	4
.LBB14f62aad_31:
	movq	16(%rsp), %rdx
	movl	%r12d, (%rdx,%rax)
	addq	$4, %rax
	movq	%rax, 24(%rsp)
	movq	%rcx, 32(%rsp)
	incq	%r15
	cmpq	%r15, %rbp
	je	.LBB14f62aad_32
.LBB14f62aad_28:
	movl	(%r14,%r15,4), %r12d
	movq	%rcx, %rdx
	subq	%rax, %rdx
	cmpq	$3, %rdx
	ja	.LBB14f62aad_31
	leaq	16(%rsp), %rdi
	movl	$4, %esi
	callq	std_alloc.vec.Vec.grow_amortized.d7da23479759cf44
	testb	%al, %al
	je	.LBB14f62aad_18
	movq	24(%rsp), %rax
	movq	32(%rsp), %rcx
	jmp	.LBB14f62aad_31
.LBB14f62aad_32:
	leaq	118(%rsp), %r15
	movq	32(%rsp), %rax
	movq	%rax, 134(%rsp)
	movq	16(%rsp), %rax
	movq	%rax, 118(%rsp)
	movq	24(%rsp), %rax
	movq	%rax, 126(%rsp)
	cmpq	$0, 48(%rsp)
	je	.LBB14f62aad_34
	movq	%r14, %rdi
	callq	rattle_dealloc@PLT
.LBB14f62aad_34:
	movw	$0, (%rbx)
	movups	(%r15), %xmm0
	movups	%xmm0, 8(%rbx)
	movq	16(%r15), %rax
	movq	%rax, 24(%rbx)
.LBB14f62aad_35:
	addq	$152, %rsp
	popq	%rbx
	popq	%r12
	popq	%r13
	popq	%r14
	popq	%r15
	popq	%rbp
	retq
.LBB14f62aad_7:
	leaq	56(%rsp), %rdi
	movq	%r12, %rsi
	callq	std_alloc.vec.Vec.grow_amortized.d7da23479759cf44
	testb	%al, %al
	je	.LBB14f62aad_22
	movq	56(%rsp), %rdx
	movq	64(%rsp), %rcx
	movq	72(%rsp), %r13
	jmp	.LBB14f62aad_9
.LBB14f62aad_18:
	cmpq	$0, 32(%rsp)
	je	.LBB14f62aad_21
	movq	16(%rsp), %rdi
	jmp	.LBB14f62aad_20
.LBB14f62aad_22:
	cmpq	$0, 72(%rsp)
	je	.LBB14f62aad_21
	movq	56(%rsp), %rdi
.LBB14f62aad_20:
	callq	rattle_dealloc@PLT
.LBB14f62aad_21:
	cmpq	$0, 48(%rsp)
	jne	.LBB14f62aad_15
	jmp	.LBB14f62aad_16
.Lfunc_end14f62aad:
	.size	hll_coupons.container.Container.image.5da326502419fe7c, .Lfunc_end14f62aad-hll_coupons.container.Container.image.5da326502419fe7c

	.section	.text.hll_coupons.container.Container.ascending.93a4c1920d65b3d5,"ax",@progbits
	.p2align	4
	.type	hll_coupons.container.Container.ascending.93a4c1920d65b3d5,@function
hll_coupons.container.Container.ascending.93a4c1920d65b3d5:
	pushq	%rbp
	pushq	%r15
	pushq	%r14
	pushq	%r12
	pushq	%rbx
	subq	$32, %rsp
	movq	%rdi, %rbx
	movq	8(%rsi), %r14
	testq	%r14, %r14
	je	.LBB8aca3819_1
	movq	%r14, %rax
	shrq	$61, %rax
	jne	.LBB8aca3819_17
	leaq	(,%r14,4), %rdi
	movq	%rsi, %r15
	movl	$4, %esi
	callq	rattle_alloc@PLT
	testb	$1, %al
	je	.LBB8aca3819_17
	movq	%r15, %rsi
	jmp	.LBB8aca3819_5
.LBB8aca3819_1:
	leaq	4(%rsp), %rdx
.LBB8aca3819_5:
	movq	%rdx, 8(%rsp)
	movq	$0, 16(%rsp)
	movq	%r14, 24(%rsp)
	cmpb	$0, 16(%rsi)
	je	.LBB8aca3819_6
	movq	32(%rsi), %r15
	movq	24(%rsi), %rsi
	jmp	.LBB8aca3819_8
.LBB8aca3819_6:
	addq	$20, %rsi
	movl	$8, %r15d
.LBB8aca3819_8:
	xorl	%r14d, %r14d
	.p2align	4
.LBB8aca3819_9:
	testq	%r15, %r15
	je	.LBB8aca3819_18
	decq	%r15
	movl	(%rsi), %ebp
	addq	$4, %rsi
	testl	%ebp, %ebp
	je	.LBB8aca3819_9
	cmpq	%r14, 24(%rsp)
	je	.LBB8aca3819_12
.LBB8aca3819_14:
	movl	%ebp, (%rdx,%r14,4)
	incq	%r14
	movq	%r14, 16(%rsp)
	jmp	.LBB8aca3819_9
.LBB8aca3819_12:
	movq	%rsi, %r12
	leaq	8(%rsp), %rdi
	movl	$1, %esi
	callq	std_alloc.vec.Vec.grow_amortized.11231e1ee52b7a7f
	testb	%al, %al
	je	.LBB8aca3819_15
	movq	8(%rsp), %rdx
	movq	16(%rsp), %r14
	movq	%r12, %rsi
	jmp	.LBB8aca3819_14
.LBB8aca3819_18:
	movq	8(%rsp), %r15
	movq	24(%rsp), %r12
	movq	%r15, %rdi
	movq	%r14, %rsi
	callq	std_alloc.vec.Vec.sort_unstable.b520de54a9121e34
	movw	$0, (%rbx)
	movq	%r15, 8(%rbx)
	movq	%r14, 16(%rbx)
	movq	%r12, 24(%rbx)
	jmp	.LBB8aca3819_19
.LBB8aca3819_15:
	cmpq	$0, 24(%rsp)
	je	.LBB8aca3819_17
	movq	8(%rsp), %rdi
	callq	rattle_dealloc@PLT
.LBB8aca3819_17:
	movw	$3073, (%rbx)
	xorps	%xmm0, %xmm0
	movups	%xmm0, 8(%rbx)
	movq	$0, 24(%rbx)
.LBB8aca3819_19:
	addq	$32, %rsp
	popq	%rbx
	popq	%r12
	popq	%r14
	popq	%r15
	popq	%rbp
	retq
.Lfunc_end8aca3819:
	.size	hll_coupons.container.Container.ascending.93a4c1920d65b3d5, .Lfunc_end8aca3819-hll_coupons.container.Container.ascending.93a4c1920d65b3d5

	.section	.text.hll_registers.preamble.Preamble.start_image.f8e44fc08f8602d9,"ax",@progbits
	.p2align	4
	.type	hll_registers.preamble.Preamble.start_image.f8e44fc08f8602d9,@function
hll_registers.preamble.Preamble.start_image.f8e44fc08f8602d9:
	pushq	%rbp
	pushq	%r15
	pushq	%r14
	pushq	%r13
	pushq	%r12
	pushq	%rbx
	subq	$104, %rsp
	movq	%rcx, %r14
	movl	%edx, %r15d
	movq	%rdi, %rbx
	movups	(%rsi), %xmm0
	movq	16(%rsi), %r12
	movq	24(%rsi), %rbp
	movq	32(%rsi), %r13
	testq	%rcx, %rcx
	je	.LBBfcd79e1b_1
	js	.LBBfcd79e1b_14
	movl	$1, %esi
	movq	%r14, %rdi
	movaps	%xmm0, 80(%rsp)
	callq	rattle_alloc@PLT
	movaps	80(%rsp), %xmm0
	testb	$1, %al
	jne	.LBBfcd79e1b_4
.LBBfcd79e1b_14:
	movw	$3073, (%rbx)
	xorps	%xmm0, %xmm0
	movups	%xmm0, 8(%rbx)
	movq	$0, 24(%rbx)
	jmp	.LBBfcd79e1b_15
.LBBfcd79e1b_1:
	leaq	15(%rsp), %rdx
.LBBfcd79e1b_4:
	movq	%rdx, 16(%rsp)
	movq	$0, 24(%rsp)
	movq	%r14, 32(%rsp)
	movl	%r15d, %eax
	shrl	$16, %eax
	movl	%r15d, %ecx
	shrl	$24, %ecx
	shll	$4, %ebp
	andl	$16, %ebp
	addl	%eax, %ebp
	movl	%r15d, %eax
	shrl	$6, %eax
	andl	$12, %eax
	orl	$2, %eax
	shlq	$56, %rax
	shlq	$48, %rcx
	orq	%rax, %rcx
	movzbl	%bpl, %eax
	shlq	$40, %rax
	orq	%rcx, %rax
	shll	$24, %r15d
	addq	%r15, %rax
	addq	$459018, %rax
	movq	%rax, 40(%rsp)
	movups	%xmm0, 48(%rsp)
	movq	%r12, 64(%rsp)
	movq	%r13, 72(%rsp)
	cmpq	$39, %r14
	jbe	.LBBfcd79e1b_6
	xorl	%eax, %eax
.LBBfcd79e1b_8:
	addq	%rax, %rdx
	addq	$40, %rax
	leaq	40(%rsp), %rcx
	movq	%rdx, %rsi
	subq	%rcx, %rsi
	cmpq	$39, %rsi
	ja	.LBBfcd79e1b_11
	movq	72(%rsp), %rcx
	movq	%rcx, 32(%rdx)
	movups	40(%rsp), %xmm0
	movups	56(%rsp), %xmm1
	jmp	.LBBfcd79e1b_10
.LBBfcd79e1b_11:
	movups	40(%rsp), %xmm0
	movups	56(%rsp), %xmm1
	movq	72(%rsp), %rcx
	movq	%rcx, 32(%rdx)
.LBBfcd79e1b_10:
	movups	%xmm1, 16(%rdx)
	movups	%xmm0, (%rdx)
	movq	%rax, 24(%rsp)
	movq	%r14, 32(%rsp)
	movw	$0, (%rbx)
	movq	16(%rsp), %rax
	movq	%rax, 8(%rbx)
	movq	24(%rsp), %rax
	movq	%rax, 16(%rbx)
	movq	32(%rsp), %rax
	movq	%rax, 24(%rbx)
.LBBfcd79e1b_15:
	addq	$104, %rsp
	popq	%rbx
	popq	%r12
	popq	%r13
	popq	%r14
	popq	%r15
	popq	%rbp
	retq
.LBBfcd79e1b_6:
	leaq	16(%rsp), %rdi
	movl	$40, %esi
	callq	std_alloc.vec.Vec.grow_amortized.d7da23479759cf44
	testb	%al, %al
	je	.LBBfcd79e1b_12
	movq	16(%rsp), %rdx
	movq	24(%rsp), %rax
	movq	32(%rsp), %r14
	jmp	.LBBfcd79e1b_8
.LBBfcd79e1b_12:
	cmpq	$0, 32(%rsp)
	je	.LBBfcd79e1b_14
	movq	16(%rsp), %rdi
	callq	rattle_dealloc@PLT
	jmp	.LBBfcd79e1b_14
.Lfunc_endfcd79e1b:
	.size	hll_registers.preamble.Preamble.start_image.f8e44fc08f8602d9, .Lfunc_endfcd79e1b-hll_registers.preamble.Preamble.start_image.f8e44fc08f8602d9

	.section	.rodata.cst16,"aM",@progbits,16
	.p2align	4, 0x0
.LCPI5d47c0fe_0:
	.quad	1
	.quad	1
.LCPI5d47c0fe_1:
	.zero	16,1
.LCPI5d47c0fe_2:
	.short	1
	.short	1
	.short	1
	.short	1
	.short	1
	.short	1
	.short	1
	.short	1
	.section	.text.hll_kernels.kernels.zeros_in,"ax",@progbits
	.p2align	4
	.type	hll_kernels.kernels.zeros_in,@function
hll_kernels.kernels.zeros_in:
	movq	%rsi, %rdx
	shrq	$6, %rdx
	movl	%esi, %eax
	andl	$63, %eax
	testq	%rdx, %rdx
	je	.LBB5d47c0fe_1
	pxor	%xmm4, %xmm4
	cmpq	$1, %rdx
	jne	.LBB5d47c0fe_4
	xorl	%ecx, %ecx
	pxor	%xmm1, %xmm1
	pxor	%xmm0, %xmm0
	pxor	%xmm2, %xmm2
	pxor	%xmm3, %xmm3
	jmp	.LBB5d47c0fe_7
.LBB5d47c0fe_1:
	pxor	%xmm1, %xmm1
	pxor	%xmm0, %xmm0
	pxor	%xmm2, %xmm2
	pxor	%xmm3, %xmm3
	jmp	.LBB5d47c0fe_8
.LBB5d47c0fe_4:
	movq	%rdx, %r8
	andq	$-2, %r8
	leaq	64(%rdi), %r9
	pxor	%xmm5, %xmm5
	xorl	%ecx, %ecx
	pxor	%xmm1, %xmm1
	pxor	%xmm0, %xmm0
	pxor	%xmm2, %xmm2
	pxor	%xmm3, %xmm3
	.p2align	4
.LBB5d47c0fe_5:
	movdqu	-64(%r9), %xmm6
	movdqu	-48(%r9), %xmm7
	movdqu	-32(%r9), %xmm8
	movdqu	-16(%r9), %xmm9
	pcmpeqb	%xmm5, %xmm8
	psubb	%xmm8, %xmm2
	pcmpeqb	%xmm5, %xmm7
	psubb	%xmm7, %xmm0
	pcmpeqb	%xmm5, %xmm6
	psubb	%xmm6, %xmm1
	pcmpeqb	%xmm5, %xmm9
	psubb	%xmm9, %xmm3
	movdqu	32(%r9), %xmm6
	movdqu	16(%r9), %xmm7
	movdqu	(%r9), %xmm8
	movdqu	48(%r9), %xmm9
	pcmpeqb	%xmm5, %xmm9
	psubb	%xmm9, %xmm3
	pcmpeqb	%xmm5, %xmm8
	psubb	%xmm8, %xmm1
	pcmpeqb	%xmm5, %xmm7
	psubb	%xmm7, %xmm0
	pcmpeqb	%xmm5, %xmm6
	psubb	%xmm6, %xmm2
	addq	$2, %rcx
	subq	$-128, %r9
	cmpq	%rcx, %r8
	jne	.LBB5d47c0fe_5
	testb	$1, %dl
	je	.LBB5d47c0fe_8
.LBB5d47c0fe_7:
	shlq	$6, %rcx
	movdqu	(%rdi,%rcx), %xmm5
	movdqu	16(%rdi,%rcx), %xmm6
	movdqu	32(%rdi,%rcx), %xmm7
	movdqu	48(%rdi,%rcx), %xmm8
	pcmpeqb	%xmm4, %xmm5
	psubb	%xmm5, %xmm1
	pcmpeqb	%xmm4, %xmm6
	psubb	%xmm6, %xmm0
	pcmpeqb	%xmm4, %xmm7
	psubb	%xmm7, %xmm2
	pcmpeqb	%xmm4, %xmm8
	psubb	%xmm8, %xmm3
.LBB5d47c0fe_8:
	testq	%rax, %rax
	je	.LBB5d47c0fe_9
	movq	%rsi, %rdx
	andq	$-64, %rdx
	cmpl	$4, %eax
	jae	.LBB5d47c0fe_12
	xorl	%ecx, %ecx
	xorl	%esi, %esi
	jmp	.LBB5d47c0fe_15
.LBB5d47c0fe_9:
	xorl	%ecx, %ecx
	jmp	.LBB5d47c0fe_17
.LBB5d47c0fe_12:
	andl	$60, %esi
	leaq	(%rdx,%rdi), %rcx
	addq	$2, %rcx
	pxor	%xmm5, %xmm5
	xorl	%r8d, %r8d
	pxor	%xmm6, %xmm6
	pxor	%xmm4, %xmm4
	.p2align	4
.LBB5d47c0fe_13:
	movzwl	-2(%rcx,%r8), %r9d
	movd	%r9d, %xmm7
	movzwl	(%rcx,%r8), %r9d
	movd	%r9d, %xmm8
	pcmpeqb	%xmm5, %xmm7
	pmovzxbq	%xmm7, %xmm7
	movdqa	.LCPI5d47c0fe_0(%rip), %xmm9
	pand	%xmm9, %xmm7
	paddq	%xmm7, %xmm6
	pcmpeqb	%xmm5, %xmm8
	pmovzxbq	%xmm8, %xmm7
	pand	%xmm9, %xmm7
	paddq	%xmm7, %xmm4
	addq	$4, %r8
	cmpq	%r8, %rsi
	jne	.LBB5d47c0fe_13
	paddq	%xmm6, %xmm4
	pshufd	$238, %xmm4, %xmm5
	paddq	%xmm4, %xmm5
	movq	%xmm5, %rcx
	cmpl	%esi, %eax
	je	.LBB5d47c0fe_17
.LBB5d47c0fe_15:
	addq	%rdx, %rdi
	.p2align	4
.LBB5d47c0fe_16:
	cmpb	$1, (%rdi,%rsi)
	adcq	$0, %rcx
	incq	%rsi
	cmpq	%rsi, %rax
	jne	.LBB5d47c0fe_16
.LBB5d47c0fe_17:
	movdqa	.LCPI5d47c0fe_1(%rip), %xmm4
	pmaddubsw	%xmm4, %xmm1
	movdqa	.LCPI5d47c0fe_2(%rip), %xmm5
	pmaddwd	%xmm5, %xmm1
	pmaddubsw	%xmm4, %xmm0
	pmaddwd	%xmm5, %xmm0
	pmaddubsw	%xmm4, %xmm2
	pmaddwd	%xmm5, %xmm2
	paddd	%xmm1, %xmm2
	pmaddubsw	%xmm4, %xmm3
	pmaddwd	%xmm5, %xmm3
	paddd	%xmm0, %xmm3
	paddd	%xmm2, %xmm3
	pshufd	$238, %xmm3, %xmm0
	paddd	%xmm3, %xmm0
	pshufd	$85, %xmm0, %xmm1
	paddd	%xmm0, %xmm1
	movd	%xmm1, %eax
	addq	%rcx, %rax
	retq
.Lfunc_end5d47c0fe:
	.size	hll_kernels.kernels.zeros_in, .Lfunc_end5d47c0fe-hll_kernels.kernels.zeros_in

	.section	.text.hll_text.refusal.write_number.03326aa510967ad1,"ax",@progbits
	.p2align	4
	.type	hll_text.refusal.write_number.03326aa510967ad1,@function
hll_text.refusal.write_number.03326aa510967ad1:
	pushq	%rbx
	subq	$96, %rsp
	movq	%rdi, %rbx
	movb	$0, 6(%rsp)
	movw	$0, 4(%rsp)
	movabsq	$-3689348814741910323, %rcx
	movq	%rsi, %rax
	mulq	%rcx
	shrq	$3, %rdx
	leal	(%rdx,%rdx), %eax
	leal	(%rax,%rax,4), %eax
	movl	%esi, %ecx
	subl	%eax, %ecx
	orb	$48, %cl
	movb	%cl, 3(%rsp)
	cmpq	$10, %rsi
	jb	.LBB99ff8a6f_1
	leaq	4(%rsp), %rdi
	movq	%rdx, %rsi
	callq	hll_text.refusal.write_number.03326aa510967ad1
	cmpb	$0, 4(%rsp)
	je	.LBB99ff8a6f_1
	movzwl	5(%rsp), %eax
	movb	$1, (%rbx)
	movw	%ax, 1(%rbx)
	addq	$96, %rsp
	popq	%rbx
	retq
.LBB99ff8a6f_1:
	leaq	3(%rsp), %rsi
	movl	$1, %edx
	movl	$2, %edi
	callq	write@PLT
	testq	%rax, %rax
	js	.LBB99ff8a6f_3
	xorl	%edx, %edx
	testq	%rax, %rax
	sete	%cl
	movl	$7, %eax
	cmovnel	%edx, %eax
	jmp	.LBB99ff8a6f_4
.LBB99ff8a6f_3:
	leaq	8(%rsp), %rdi
	callq	std_io.io.error.last_error
	movb	$7, %al
	movb	$1, %cl
.LBB99ff8a6f_4:
	movb	%cl, (%rbx)
	movb	%al, 1(%rbx)
	movb	$0, 2(%rbx)
	addq	$96, %rsp
	popq	%rbx
	retq
.Lfunc_end99ff8a6f:
	.size	hll_text.refusal.write_number.03326aa510967ad1, .Lfunc_end99ff8a6f-hll_text.refusal.write_number.03326aa510967ad1

	.section	.rodata.cst16,"aM",@progbits,16
	.p2align	4, 0x0
.LCPI0d6e4079_0:
	.byte	116
	.byte	104
	.byte	105
	.byte	115
	.byte	32
	.byte	109
	.byte	97
	.byte	99
	.byte	104
	.byte	105
	.byte	110
	.byte	101
	.byte	32
	.byte	108
	.byte	97
	.byte	99
.LCPI0d6e4079_1:
	.byte	107
	.byte	115
	.byte	32
	.byte	97
	.byte	32
	.byte	102
	.byte	101
	.byte	97
	.byte	116
	.byte	117
	.byte	114
	.byte	101
	.byte	32
	.byte	111
	.byte	102
	.byte	32
.LCPI0d6e4079_2:
	.byte	120
	.byte	56
	.byte	54
	.byte	45
	.byte	54
	.byte	52
	.byte	45
	.byte	118
	.byte	50
	.byte	44
	.byte	32
	.byte	119
	.byte	104
	.byte	105
	.byte	99
	.byte	104
.LCPI0d6e4079_3:
	.byte	32
	.byte	116
	.byte	104
	.byte	105
	.byte	115
	.byte	32
	.byte	112
	.byte	114
	.byte	111
	.byte	103
	.byte	114
	.byte	97
	.byte	109
	.byte	32
	.byte	119
	.byte	97
.LCPI0d6e4079_4:
	.byte	115
	.byte	32
	.byte	98
	.byte	117
	.byte	105
	.byte	108
	.byte	116
	.byte	32
	.byte	102
	.byte	111
	.byte	114
	.byte	58
	.byte	32
	.byte	114
	.byte	117
	.byte	110
.LCPI0d6e4079_5:
	.byte	32
	.byte	105
	.byte	116
	.byte	32
	.byte	111
	.byte	110
	.byte	32
	.byte	97
	.byte	110
	.byte	111
	.byte	116
	.byte	104
	.byte	101
	.byte	114
	.byte	32
	.byte	109
.LCPI0d6e4079_6:
	.byte	97
	.byte	99
	.byte	104
	.byte	105
	.byte	110
	.byte	101
	.byte	44
	.byte	32
	.byte	111
	.byte	114
	.byte	32
	.byte	98
	.byte	117
	.byte	105
	.byte	108
	.byte	100
.LCPI0d6e4079_7:
	.byte	32
	.byte	105
	.byte	116
	.byte	32
	.byte	119
	.byte	105
	.byte	116
	.byte	104
	.byte	32
	.byte	45
	.byte	45
	.byte	99
	.byte	112
	.byte	117
	.byte	32
	.byte	120
	.section	.text.main,"ax",@progbits
	.globl	main
	.p2align	4
	.type	main,@function
main:
	pushq	%rbp
	movq	%rsp, %rbp
	pushq	%rbx
	pushq	%rax
	movl	$1, %esi
	movl	$13, %edi
	callq	__sysv_signal@PLT
	xorl	%edi, %edi
	callq	__x86_get_cpuid_feature_leaf@PLT
	movl	24(%rax), %ebx
	movl	$2, %edi
	callq	__x86_get_cpuid_feature_leaf@PLT
	notl	%ebx
	testl	$9970177, %ebx
	jne	.LBB0d6e4079_2
	movl	24(%rax), %eax
	andl	$1, %eax
	je	.LBB0d6e4079_2
	leaq	-8(%rbp), %rsp
	popq	%rbx
	popq	%rbp
	jmp	hll_estimator_fields_program.main.start
.LBB0d6e4079_2:
	movq	%rsp, %rsi
	subq	$144, %rsi
	cmpq	%rsp, %rsi
	jge	.LBB0d6e4079_5
.LBB0d6e4079_4:
	xorq	$0, (%rsp)
	subq	$3072, %rsp
	cmpq	%rsp, %rsi
	jl	.LBB0d6e4079_4
.LBB0d6e4079_5:
	movq	%rsi, %rsp
	movaps	.LCPI0d6e4079_0(%rip), %xmm0
	movaps	%xmm0, (%rsi)
	movaps	.LCPI0d6e4079_1(%rip), %xmm0
	movaps	%xmm0, 16(%rsi)
	movaps	.LCPI0d6e4079_2(%rip), %xmm0
	movaps	%xmm0, 32(%rsi)
	movaps	.LCPI0d6e4079_3(%rip), %xmm0
	movaps	%xmm0, 48(%rsi)
	movaps	.LCPI0d6e4079_4(%rip), %xmm0
	movaps	%xmm0, 64(%rsi)
	movaps	.LCPI0d6e4079_5(%rip), %xmm0
	movaps	%xmm0, 80(%rsi)
	movaps	.LCPI0d6e4079_6(%rip), %xmm0
	movaps	%xmm0, 96(%rsi)
	movaps	.LCPI0d6e4079_7(%rip), %xmm0
	movaps	%xmm0, 112(%rsi)
	movl	$908932664, 128(%rsi)
	movw	$2612, 132(%rsi)
	movl	$134, %edx
	movl	$2, %edi
	callq	__write@PLT
	movl	$127, %eax
	leaq	-8(%rbp), %rsp
	popq	%rbx
	popq	%rbp
	retq
.Lfunc_end0d6e4079:
	.size	main, .Lfunc_end0d6e4079-main

	.type	.Lstatic.1,@object
	.section	.rodata..Lstatic.1,"a",@progbits
.Lstatic.1:
	.byte	10
	.size	.Lstatic.1, 1

	.type	.Lstatic.2,@object
	.section	.rodata.cst16,"aM",@progbits,16
.Lstatic.2:
	.ascii	"0123456789abcdef"
	.size	.Lstatic.2, 16

	.type	.Lstatic.3,@object
	.section	.rodata..Lstatic.3,"a",@progbits
.Lstatic.3:
	.ascii	"line "
	.size	.Lstatic.3, 5

	.type	.Lstatic.4,@object
	.section	.rodata..Lstatic.4,"a",@progbits
.Lstatic.4:
	.ascii	": "
	.size	.Lstatic.4, 2

	.type	.Lstatic.5,@object
	.section	.rodata..Lstatic.5,"a",@progbits
.Lstatic.5:
	.ascii	"syntax"
	.size	.Lstatic.5, 6

	.type	.Lstatic.6,@object
	.section	.rodata..Lstatic.6,"a",@progbits
.Lstatic.6:
	.ascii	"range"
	.size	.Lstatic.6, 5

	.type	.Lstatic.7,@object
	.section	.rodata..Lstatic.7,"a",@progbits
.Lstatic.7:
	.ascii	"hex"
	.size	.Lstatic.7, 3

	.type	.Lstatic.8,@object
	.section	.rodata..Lstatic.8,"a",@progbits
.Lstatic.8:
	.ascii	"image "
	.size	.Lstatic.8, 6

	.type	.Lstatic.9,@object
	.section	.rodata..Lstatic.9,"a",@progbits
.Lstatic.9:
	.ascii	"stack"
	.size	.Lstatic.9, 5

	.type	.Lstatic.10,@object
	.section	.rodata..Lstatic.10,"a",@progbits
.Lstatic.10:
	.ascii	"memory"
	.size	.Lstatic.10, 6

	.type	.Lstatic.11,@object
	.section	.rodata.cst4,"aM",@progbits,4
.Lstatic.11:
	.ascii	"read"
	.size	.Lstatic.11, 4

	.type	.Lstatic.12,@object
	.section	.rodata..Lstatic.12,"a",@progbits
.Lstatic.12:
	.ascii	"write"
	.size	.Lstatic.12, 5

	.type	.Lstatic.13,@object
	.section	.rodata.cst4,"aM",@progbits,4
.Lstatic.13:
	.ascii	"fold"
	.size	.Lstatic.13, 4

	.type	.Lstatic.14,@object
	.section	.rodata..Lstatic.14,"a",@progbits
.Lstatic.14:
	.ascii	"truncated"
	.size	.Lstatic.14, 9

	.type	.Lstatic.15,@object
	.section	.rodata..Lstatic.15,"a",@progbits
.Lstatic.15:
	.ascii	"family"
	.size	.Lstatic.15, 6

	.type	.Lstatic.16,@object
	.section	.rodata..Lstatic.16,"a",@progbits
.Lstatic.16:
	.ascii	"version"
	.size	.Lstatic.16, 7

	.type	.Lstatic.17,@object
	.section	.rodata..Lstatic.17,"a",@progbits
.Lstatic.17:
	.ascii	"lgk"
	.size	.Lstatic.17, 3

	.type	.Lstatic.18,@object
	.section	.rodata..Lstatic.18,"a",@progbits
.Lstatic.18:
	.ascii	"width"
	.size	.Lstatic.18, 5

	.type	.Lstatic.19,@object
	.section	.rodata..Lstatic.19,"a",@progbits
.Lstatic.19:
	.ascii	"stage"
	.size	.Lstatic.19, 5

	.type	.Lstatic.20,@object
	.section	.rodata.cst8,"aM",@progbits,8
.Lstatic.20:
	.ascii	"preamble"
	.size	.Lstatic.20, 8

	.type	.Lstatic.21,@object
	.section	.rodata..Lstatic.21,"a",@progbits
.Lstatic.21:
	.ascii	"lgarr"
	.size	.Lstatic.21, 5

	.type	.Lstatic.22,@object
	.section	.rodata..Lstatic.22,"a",@progbits
.Lstatic.22:
	.ascii	"count"
	.size	.Lstatic.22, 5

	.type	.Lstatic.23,@object
	.section	.rodata..Lstatic.23,"a",@progbits
.Lstatic.23:
	.ascii	"coupon"
	.size	.Lstatic.23, 6

	.type	.Lstatic.24,@object
	.section	.rodata.cst8,"aM",@progbits,8
.Lstatic.24:
	.ascii	"register"
	.size	.Lstatic.24, 8

	.type	.Lstatic.25,@object
.Lstatic.25:
	.ascii	"argument"
	.size	.Lstatic.25, 8

	.type	.Lswitch.table.hll_estimator_fields_program.main.start,@object
	.section	.rodata..Lswitch.table.hll_estimator_fields_program.main.start,"a",@progbits
	.p2align	3, 0x0
.Lswitch.table.hll_estimator_fields_program.main.start:
	.quad	9
	.quad	6
	.quad	7
	.quad	3
	.quad	5
	.quad	5
	.quad	8
	.quad	5
	.quad	5
	.quad	6
	.quad	8
	.quad	8
	.quad	6
	.size	.Lswitch.table.hll_estimator_fields_program.main.start, 104

	.type	.Lswitch.table.hll_estimator_fields_program.main.start.237.rel,@object
	.section	.rodata..Lswitch.table.hll_estimator_fields_program.main.start.237.rel,"a",@progbits
	.p2align	2, 0x0
.Lswitch.table.hll_estimator_fields_program.main.start.237.rel:
	.long	.Lstatic.14-.Lswitch.table.hll_estimator_fields_program.main.start.237.rel
	.long	.Lstatic.15-.Lswitch.table.hll_estimator_fields_program.main.start.237.rel
	.long	.Lstatic.16-.Lswitch.table.hll_estimator_fields_program.main.start.237.rel
	.long	.Lstatic.17-.Lswitch.table.hll_estimator_fields_program.main.start.237.rel
	.long	.Lstatic.18-.Lswitch.table.hll_estimator_fields_program.main.start.237.rel
	.long	.Lstatic.19-.Lswitch.table.hll_estimator_fields_program.main.start.237.rel
	.long	.Lstatic.20-.Lswitch.table.hll_estimator_fields_program.main.start.237.rel
	.long	.Lstatic.21-.Lswitch.table.hll_estimator_fields_program.main.start.237.rel
	.long	.Lstatic.22-.Lswitch.table.hll_estimator_fields_program.main.start.237.rel
	.long	.Lstatic.23-.Lswitch.table.hll_estimator_fields_program.main.start.237.rel
	.long	.Lstatic.24-.Lswitch.table.hll_estimator_fields_program.main.start.237.rel
	.long	.Lstatic.25-.Lswitch.table.hll_estimator_fields_program.main.start.237.rel
	.long	.Lstatic.10-.Lswitch.table.hll_estimator_fields_program.main.start.237.rel
	.size	.Lswitch.table.hll_estimator_fields_program.main.start.237.rel, 52

	.ident	"rattle logic=dac8208d650f15bf3e2dc313a14fa4c783a3acf887bdfab66e1714b038d9e11b"
	.section	.note.GNU-stack,"",@progbits
