# A reserved instruction, in any mode, with its PC and PSL on the stack of that mode. `emulate` does what it means to these registers.
	.text
	.globl	emulated
	.balign	4
emulated:
	subl2	$24,%sp			# a longword for SP, and room for what the instruction itself pushes
	pushr	$0x3fff			# R0 to R11, AP and FP
	pushl	%sp
	calls	$1,emulate
	popr	$0x3fff
	movl	(%sp),%sp		# where emulate has put PC and PSL
	rei
