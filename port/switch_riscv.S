// Stacks of a task, for RISC-V without floating point. What a call must keep is pushed: the return, s0 to s11.
#if __riscv_xlen == 64
#define STORE sd
#define LOAD ld
    .set width, 8
#else
#define STORE sw
#define LOAD lw
    .set width, 4
#endif
    .set kept, 14 * width

    .text
    .globl switch_stack, new_stack

switch_stack:
    addi sp, sp, -kept
    STORE ra, 0 * width(sp)
    STORE s0, 1 * width(sp)
    STORE s1, 2 * width(sp)
    STORE s2, 3 * width(sp)
    STORE s3, 4 * width(sp)
    STORE s4, 5 * width(sp)
    STORE s5, 6 * width(sp)
    STORE s6, 7 * width(sp)
    STORE s7, 8 * width(sp)
    STORE s8, 9 * width(sp)
    STORE s9, 10 * width(sp)
    STORE s10, 11 * width(sp)
    STORE s11, 12 * width(sp)
    STORE sp, 0 * width(a0)
    mv sp, a1
    LOAD ra, 0 * width(sp)
    LOAD s0, 1 * width(sp)
    LOAD s1, 2 * width(sp)
    LOAD s2, 3 * width(sp)
    LOAD s3, 4 * width(sp)
    LOAD s4, 5 * width(sp)
    LOAD s5, 6 * width(sp)
    LOAD s6, 7 * width(sp)
    LOAD s7, 8 * width(sp)
    LOAD s8, 9 * width(sp)
    LOAD s9, 10 * width(sp)
    LOAD s10, 11 * width(sp)
    LOAD s11, 12 * width(sp)
    addi sp, sp, kept
    ret

new_stack:
    addi a0, a0, -kept
    STORE a1, 0 * width(a0)
    ret
