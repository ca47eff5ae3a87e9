/ the number
	.globl	_count
	.data
_count:
	21.
