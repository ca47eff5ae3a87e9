.globl _main
_main: rts pc
