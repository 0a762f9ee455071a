# Books an amount to an account and answers the fee, which is taken off each entry but the first. The fee and the
# places in an account are told at the end, or to the assembler on its command line.
	.section .text.book,"ax",@progbits
	.globl book
	.type book, @function
book:
	movl 4(%esp), %edx
	movl 8(%esp), %ecx
	cmpl $0, ENTRIES(%edx)
	je .Lfirst
	subl $FEE, %ecx
.Lfirst:
	addl %ecx, BALANCE(%edx)
	addl $1, ENTRIES(%edx)
	pushl $FEE
	popl %eax
	ret
	.size book, .-book

	.ifndef FEE
	.set FEE, 3
	.set BALANCE, 4
	.set ENTRIES, 8
	.endif
