/ exec comes back only if it fails. Its name and its arguments are two addresses after the call; texts follow the exit of the child.
.globl _shell
_shell:
	104402		/ sys fork
	br	1f
	rts	pc
1:	104413		/ sys exec
	name
	arguments
	mov	$-1,r0
	104401		/ sys exit
name:
	</bin/sh\0>
	.even
arguments:
	name
	0
