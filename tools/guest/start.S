# Where the guest begins, takes traps, and enters and leaves user mode. It runs in supervisor mode. A machine that begins in
# machine mode, as QEMU's "virt" does without firmware, first hands everything to the supervisor and goes there, on hart 0 alone;
# one that begins in supervisor mode comes there at once, by the trap of an instruction that it doesn't have.
    .section .text.start
    .globl _start
_start:
    la t0, in_supervisor
    csrw stvec, t0
    csrr t1, mhartid
    bnez t1, other_hart
    li t1, -1
    csrw pmpaddr0, t1
    li t1, 0x1f
    csrw pmpcfg0, t1
    li t1, -1
    csrw medeleg, t1
    csrw mideleg, t1
    li t1, 0x1800
    csrc mstatus, t1
    li t1, 0x800
    csrs mstatus, t1
    csrw mepc, t0
    mret
other_hart:
    wfi
    j other_hart

    .balign 4
in_supervisor:
    la t0, on_trap_entry
    csrw stvec, t0
    la t0, trap_stack_end
    csrw sscratch, t0
    la sp, stack_end
    call guest
    li t0, 0x100000
    li t1, 0x5555
    sw t1, 0(t0)
1:  j 1b

# Saves the registers on the traps' own stack, and asks on_trap where to go on.
    .balign 4
on_trap_entry:
    csrrw sp, sscratch, sp
    addi sp, sp, -128
    sd ra, 0(sp)
    sd t0, 8(sp)
    sd t1, 16(sp)
    sd t2, 24(sp)
    sd t3, 32(sp)
    sd t4, 40(sp)
    sd t5, 48(sp)
    sd t6, 56(sp)
    sd a0, 64(sp)
    sd a1, 72(sp)
    sd a2, 80(sp)
    sd a3, 88(sp)
    sd a4, 96(sp)
    sd a5, 104(sp)
    sd a6, 112(sp)
    sd a7, 120(sp)
    csrr a0, scause
    csrr a1, stval
    csrr a2, sepc
    call on_trap
    csrw sepc, a0
    ld ra, 0(sp)
    ld t0, 8(sp)
    ld t1, 16(sp)
    ld t2, 24(sp)
    ld t3, 32(sp)
    ld t4, 40(sp)
    ld t5, 48(sp)
    ld t6, 56(sp)
    ld a0, 64(sp)
    ld a1, 72(sp)
    ld a2, 80(sp)
    ld a3, 88(sp)
    ld a4, 96(sp)
    ld a5, 104(sp)
    ld a6, 112(sp)
    ld a7, 120(sp)
    addi sp, sp, 128
    csrrw sp, sscratch, sp
    sret

# unsigned long enter_user(unsigned long address, unsigned long argument): goes on in user mode there, and comes back at the user's
# call with what it left in a0.
    .globl enter_user
enter_user:
    addi sp, sp, -112
    sd ra, 0(sp)
    sd s0, 8(sp)
    sd s1, 16(sp)
    sd s2, 24(sp)
    sd s3, 32(sp)
    sd s4, 40(sp)
    sd s5, 48(sp)
    sd s6, 56(sp)
    sd s7, 64(sp)
    sd s8, 72(sp)
    sd s9, 80(sp)
    sd s10, 88(sp)
    sd s11, 96(sp)
    la t0, saved_stack
    sd sp, 0(t0)
    csrw sepc, a0
    mv a0, a1
    li t0, 0x100
    csrc sstatus, t0
    sret

    .globl leave_user
leave_user:
    la t0, saved_stack
    ld sp, 0(t0)
    ld ra, 0(sp)
    ld s0, 8(sp)
    ld s1, 16(sp)
    ld s2, 24(sp)
    ld s3, 32(sp)
    ld s4, 40(sp)
    ld s5, 48(sp)
    ld s6, 56(sp)
    ld s7, 64(sp)
    ld s8, 72(sp)
    ld s9, 80(sp)
    ld s10, 88(sp)
    ld s11, 96(sp)
    addi sp, sp, 112
    ret

# What the user runs, in a page of its own: adds up the words of the page whose address is in a0, and calls.
    .section .text.user
    .balign 4096
    .globl user_code
user_code:
    mv t0, a0
    li t1, 512
    li a0, 0
1:  ld t2, 0(t0)
    add a0, a0, t2
    addi t0, t0, 8
    addi t1, t1, -1
    bnez t1, 1b
    ecall
    .balign 4096

    .bss
    .balign 16
saved_stack:
    .skip 16
    .skip 8192
stack_end:
    .skip 4096
trap_stack_end:
