.text
.globl inc2
inc2:
	addq $1, %rax
	addq $1, %rax
	ret
