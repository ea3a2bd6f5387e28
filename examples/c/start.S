# Gives main a stack, and ends the machine with a pass behind it, or with a fail of main's number.
    .section .text.start
    .globl _start
_start:
    la sp, stack_end
    call main
    li t0, 0x100000             # the finisher
    li t1, 0x5555
    beqz a0, 1f
    slli a0, a0, 16
    li t1, 0x3333
    or t1, t1, a0
1:  sw t1, 0(t0)
2:  j 2b

    .bss
    .balign 16
    .skip 0x4000
stack_end:
