# Start and traps: a stack, a clear bss, a place for traps, main, and the end of the run with main's result.

    .section .text.start, "ax"
    .globl _start
_start:
    la      sp, __stack_top
    la      tp, __tls_base
    la      t0, trap_entry
    csrw    mtvec, t0
    la      t0, __bss_start
    la      t1, __bss_end
    bgeu    t0, t1, 2f
1:  sw      zero, 0(t0)
    addi    t0, t0, 4
    bltu    t0, t1, 1b
2:  call    main
    li      t0, 0x10100000          # power: the run ends after this store
    sw      a0, 0(t0)
3:  j       3b

# All registers go into a frame on the stack. take_trap answers the frame to go on with.
    .section .text.trap, "ax"
    .balign 4
trap_entry:
    addi    sp, sp, -128
    sw      ra, 4(sp)
    sw      gp, 12(sp)
    sw      tp, 16(sp)
    sw      t0, 20(sp)
    sw      t1, 24(sp)
    sw      t2, 28(sp)
    sw      s0, 32(sp)
    sw      s1, 36(sp)
    sw      a0, 40(sp)
    sw      a1, 44(sp)
    sw      a2, 48(sp)
    sw      a3, 52(sp)
    sw      a4, 56(sp)
    sw      a5, 60(sp)
    sw      a6, 64(sp)
    sw      a7, 68(sp)
    sw      s2, 72(sp)
    sw      s3, 76(sp)
    sw      s4, 80(sp)
    sw      s5, 84(sp)
    sw      s6, 88(sp)
    sw      s7, 92(sp)
    sw      s8, 96(sp)
    sw      s9, 100(sp)
    sw      s10, 104(sp)
    sw      s11, 108(sp)
    sw      t3, 112(sp)
    sw      t4, 116(sp)
    sw      t5, 120(sp)
    sw      t6, 124(sp)
    csrr    t0, mepc
    sw      t0, 0(sp)
    lw      t0, running_context
    sw      t0, 8(sp)
    mv      a0, sp
    csrr    a1, mcause
    csrr    a2, mtval
    call    take_trap
    mv      sp, a0
    lw      t0, 0(sp)
    csrw    mepc, t0
    lw      a0, 8(sp)               # the frame's context: announced where it is another one
    la      t1, running_context
    lw      t0, 0(t1)
    beq     a0, t0, 1f
    sw      a0, 0(t1)
    slti    x0, x0, 5
1:  lw      ra, 4(sp)
    lw      gp, 12(sp)
    lw      tp, 16(sp)
    lw      t0, 20(sp)
    lw      t1, 24(sp)
    lw      t2, 28(sp)
    lw      s0, 32(sp)
    lw      s1, 36(sp)
    lw      a0, 40(sp)
    lw      a1, 44(sp)
    lw      a2, 48(sp)
    lw      a3, 52(sp)
    lw      a4, 56(sp)
    lw      a5, 60(sp)
    lw      a6, 64(sp)
    lw      a7, 68(sp)
    lw      s2, 72(sp)
    lw      s3, 76(sp)
    lw      s4, 80(sp)
    lw      s5, 84(sp)
    lw      s6, 88(sp)
    lw      s7, 92(sp)
    lw      s8, 96(sp)
    lw      s9, 100(sp)
    lw      s10, 104(sp)
    lw      s11, 108(sp)
    lw      t3, 112(sp)
    lw      t4, 116(sp)
    lw      t5, 120(sp)
    lw      t6, 124(sp)
    addi    sp, sp, 128
    mret

    .section .sbss.running_context, "aw", @nobits
    .balign 4
running_context:
    .zero   4
