# A user's program begins with this header, which executive mode reads, and then at 210 of P0. SP is the place of its argument, a text.
	.section .start,"ax"
	.ascii	"PEBL"
	.long	text_pages
	.long	file_pages
	.long	zero_pages
	.globl	start
start:	pushl	%sp
	calls	$1,main
	pushl	%r0
	calls	$1,exit
