# The start of a guest in C that runs in user mode, with mapping on. Each page of memory is the page of P0 with the same number, and all
# modes may write it. The modify bits of P0 are clear at first. A system call is CHMK: 0 stops, 1 shows the byte in R0, 2 gets one.
# CHME and CHMS call the functions `executive` and `supervisor` of the program in their modes, where it has them.
#
# From the end of memory down: the interrupt stack, the kernel stack (2 pages each), the tables of S and of P0 (a longword for each
# page), and the stacks of executive, supervisor (2 pages each) and user mode.
	.section .start,"ax"
	.globl	start
start:	mfpr	$201,%sp		# MEMSIZE
	ashl	$-9,%sp,%r10		# how many pages that is
	subl3	$2048,%sp,%r8
	ashl	$2,%r10,%r0
	subl2	%r0,%r8			# the table of S
	subl3	%r0,%r8,%r9		# the table of P0
	clrl	%r1
	movab	traps,%r0
1:	movl	%r0,(%r1)+		# vector n leads to traps + 8 n
	addl2	$8,%r0
	cmpl	%r1,$0x104
	blssu	1b
	movab	reserved,*$0x10
	movab	call,*$0x40		# CHMK
	movl	$executive,%r0
	beql	2f
	movab	call_executive,*$0x44	# CHME
2:	movl	$supervisor,%r0
	beql	3f
	movab	call_supervisor,*$0x48	# CHMS
3:	clrl	%r0
	movl	%r8,%r1
	movl	%r9,%r2
4:	bisl3	$0x94000000,%r0,(%r1)+	# of S: valid, KW, modified
	bisl3	$0xa0000000,%r0,(%r2)+	# of P0: valid, UW
	aoblss	%r10,%r0,4b
	mtpr	$0,$17			# SCBB
	mtpr	%r8,$12			# SBR
	mtpr	%r10,$13		# SLR
	bisl3	$0x80000000,%r9,%r0
	mtpr	%r0,$8			# P0BR
	mtpr	%r10,$9			# P0LR
	subl3	$1024,%sp,%r0
	mtpr	%r0,$0			# KSP
	mtpr	%r9,$1			# ESP
	subl2	$1024,%r9
	mtpr	%r9,$2			# SSP
	subl2	$1024,%r9
	mtpr	%r9,$3			# USP
	mtpr	$1,$56			# MAPEN
	pushl	$0x03c00000		# user mode, from user mode
	pushab	begin
	rei
begin:	calls	$0,main
	pushl	%r0
	calls	$1,exit

	.text
	.balign	4
call:	tstl	(%sp)			# CHMK's operand
	beql	2f
	cmpl	(%sp)+,$2
	beql	1f
	mtpr	%r0,$35			# TXDB
	rei
1:	mfpr	$32,%r0			# RXCS
	bbc	$7,%r0,1b
	mfpr	$33,%r0			# RXDB
	rei
2:	halt

	.weak	executive
	.balign	4
call_executive:
	addl2	$4,%sp
	pushl	%r1
	calls	$1,executive
	rei

	.weak	supervisor
	.balign	4
call_supervisor:
	addl2	$4,%sp
	pushl	%r1
	calls	$1,supervisor
	rei

# A reserved instruction: where it came from kernel mode it is emulated at once. Else PC and PSL go to the stack of its mode, as if
# that mode had taken the fault, and it is emulated there.
	.balign	4
reserved:
	bitl	$0x03000000,4(%sp)	# the current mode of the PSL
	bneq	1f
	jmp	emulated
1:	pushr	$7
	ashl	$-24,16(%sp),%r0
	bicl2	$-4,%r0			# the mode, and so the number of its stack pointer's register
	mfpr	%r0,%r1
	movq	12(%sp),-(%r1)		# PC and PSL
	mtpr	%r1,%r0
	movab	emulated,12(%sp)
	bicl2	$0xff,16(%sp)		# its PSW is clear
	popr	$7
	rei

	.globl	put			# put(byte): shows a byte on the console
	.type	put,@function
put:	.word	0
	movl	4(%ap),%r0
	chmk	$1
	ret

	.globl	get			# get(): the next typed byte; waits until there is one
	.type	get,@function
get:	.word	0
	chmk	$2
	ret

	.globl	stop			# stop(): the end
	.type	stop,@function
stop:	.word	0
	chmk	$0
