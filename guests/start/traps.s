# Exceptions and interrupts: each vector leads to its place in the table, which calls the function that `connect` was told, in kernel
# mode. The function gets the place of what was pushed (parameters, PC, PSL), and answers how many parameters stand before the PC.
# Without a function the trap is shown, and the guest halts.
	.text
	.globl	traps
	.balign	8
traps:	.rept	65			# the vectors 0 to 100
	bsbw	trap
	.balign	8
	.endr

trap:	pushr	$0x3f			# R0 to R5, as C functions save the others; above them the place in the table
	subl3	$traps+3,24(%sp),%r0	# 8 n
	ashl	$-3,%r0,%r1		# n
	movl	handlers[%r1],%r2
	pushal	28(%sp)			# what was pushed
	tstl	%r2
	beql	1f
	calls	$1,(%r2)
	moval	28(%sp)[%r0],24(%sp)	# the PC's place
	popr	$0x3f
	movl	(%sp),%sp
	rei
1:	ashl	$2,%r1,-(%sp)		# the vector
	calls	$2,show_trap
	halt
