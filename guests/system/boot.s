# Pebble's first instructions, its entries from the vectors, and the switch of processes.
#
# The image is in memory at 200, and is linked for 80000200: its first instructions run with mapping off, where they are, and reach all
# by PC. They make the table of S, in which page n is page n of memory, and take it for P0 too until the jump to S.

	.section .start,"ax"
	.globl	start
start:	movab	interrupt_stack_end,%sp
	movab	system_table,%r1
	mfpr	$201,%r10		# MEMSIZE
	ashl	$-9,%r10,%r10		# as pages
	cmpl	%r10,$512
	bleq	0f
	movl	$512,%r10		# what the table has room for
0:	clrl	%r0
1:	movl	$0x94000000,%r2		# valid, KW, modified
	tstl	%r0
	beql	3f
	cmpl	%r0,$text_end_page
	bgequ	2f
	movl	$0xf8000000,%r2		# the text is UR: all modes run it
	brb	3f
2:	cmpl	%r0,$supervisor_page
	blssu	3f
	cmpl	%r0,$supervisor_end_page
	bgequ	3f
	movl	$0xc4000000,%r2		# the supervisor's data are SW
3:	bisl3	%r0,%r2,(%r1)+
	aoblss	%r10,%r0,1b
	mtpr	$0,$17			# SCBB: the vectors are at 0
	movab	system_table,%r0
	mtpr	%r0,$12			# SBR
	mtpr	%r10,$13		# SLR
	mtpr	$system_table,$8	# P0BR
	mtpr	%r10,$9			# P0LR
	mtpr	$1,$56			# MAPEN
	movl	$mapped,%r0
	jmp	(%r0)
mapped:	movab	interrupt_stack_end,%sp
	calls	$0,set_up
	brw	schedule

	.text
# Exceptions and interrupts: vector n leads to trap_table + 8 n. The C function `trapped` gets the vector and the place of what was
# pushed, and answers how many parameters stand before the PC.
	.globl	trap_table
	.balign	8
trap_table:
	.rept	65
	bsbw	trap
	.balign	8
	.endr
trap:	pushr	$0x3f			# R0 to R5
	subl3	$trap_table+3,24(%sp),%r0
	ashl	$-1,%r0,%r0		# the vector
	pushal	28(%sp)			# what was pushed
	pushl	%r0
	calls	$2,trapped
	moval	28(%sp)[%r0],24(%sp)	# the PC's place
	popr	$0x3f
	movl	(%sp),%sp
	rei

# Calls of the system: the C function gets the registers, the call's number, PC and PSL, and changes them.
	.macro	entry name,function
	.globl	\name
	.balign	4
\name:	pushr	$0x3fff			# R0 to R11, AP and FP
	pushl	%sp
	calls	$1,\function
	popr	$0x3fff
	addl2	$4,%sp
	rei
	.endm
	entry	call_kernel,kernel_call
	entry	call_executive,executive_call
	entry	call_supervisor,supervisor_call

# A reserved instruction. In kernel mode it is emulated at once. Else PC and PSL go to the stack of its mode, as if that mode had taken
# the fault, and it is emulated there: with that mode's rights, and with its page faults.
	.globl	reserved
	.balign	4
reserved:
	bitl	$0x03000000,4(%sp)	# the current mode of the PSL
	bneq	1f
	jmp	emulated
1:	pushr	$7
	ashl	$-24,16(%sp),%r0
	bicl2	$-4,%r0			# the mode: the number of its stack pointer's register
	mfpr	%r0,%r1
	movq	12(%sp),-(%r1)		# PC and PSL
	mtpr	%r1,%r0
	movab	emulated,12(%sp)
	bicl2	$0xff,16(%sp)
	popr	$7
	rei

# The software interrupt of level 3: the process has had its turn.
	.globl	reschedule
	.balign	4
reschedule:
	svpctx
schedule:
	calls	$0,next_process		# on the interrupt stack; the control block's place in memory
	mtpr	%r0,$16			# PCBB
	ldpctx
	rei

# Where a process begins that the system makes, in executive mode: R1 is the name of its program.
	.globl	first
first:	pushl	%r1
	calls	$1,run_first

# pause(): in the kernel, for a process that waits.
	.globl	pause
	.type	pause,@function
pause:	.word	0
	movpsl	-(%sp)
	pushab	1f
	svpctx
	brb	schedule
1:	ret

	.bss
	.balign	4
	.globl	system_table
system_table:
	.space	4*512
	.space	1024
interrupt_stack_end:
