# Gives main a stack and the thread's own data, where errno is, and goes to exit behind it.
    .section .text.start
    .globl _start
_start:
    la sp, stack_end
    la tp, thread_data
    call main
    call exit
