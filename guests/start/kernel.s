# The start of a guest in C that stays as it begins: kernel mode, the interrupt stack, IPL 31, mapping off.
# The vectors are at 0. The stack goes down from the end of memory.
	.section .start,"ax"
	.globl	start
start:	mfpr	$201,%sp		# MEMSIZE
	clrl	%r1
	movab	traps,%r0
1:	movl	%r0,(%r1)+		# vector n leads to traps + 8 n
	addl2	$8,%r0
	cmpl	%r1,$0x104
	blssu	1b
	movab	emulated,*$0x10		# reserved instructions
	mtpr	$0,$17			# SCBB
	calls	$0,main
	pushl	%r0
	calls	$1,exit

	.text
	.globl	put			# put(byte): shows a byte on the console
	.type	put,@function
put:	.word	0
	mtpr	4(%ap),$35		# TXDB
	ret

	.globl	get			# get(): the next typed byte; asks until there is one
	.type	get,@function
get:	.word	0
1:	mfpr	$32,%r0			# RXCS
	bbc	$7,%r0,1b
	mfpr	$33,%r0			# RXDB
	ret

	.globl	stop			# stop(): the end
	.type	stop,@function
stop:	.word	0
	halt
