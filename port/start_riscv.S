// Start of a RISC-V board, of 64 bits or of 32, in machine mode.
//
// The code may not be written, and it lies below the stack: one that grows too far ends in `trap`, and not in other data.

    .option arch, +zicsr
    .section .start, "ax"
    .globl _start
_start:
    csrr t0, mhartid
    bnez t0, 3f                                 // one processor is enough
    la t0, trap
    csrw mtvec, t0
    li t0, (0x80000000 >> 2) | ((2 << 20 >> 3) - 1)
    csrw pmpaddr0, t0                           // 2 MiB from the start of memory on
    li t0, 0x9d
    csrw pmpcfg0, t0                            // are read and run alone, also in this mode
    la sp, stack_high
    la t0, bss_low
    la t1, bss_high
1:  bgeu t0, t1, 2f
    sw zero, 0(t0)
    addi t0, t0, 4
    j 1b
2:  call board_start
3:  wfi
    j 3b

// A stack that grew too far, or an access that no memory answers: the board ends with status 99.
    .balign 4
trap:
    la sp, stack_high
    call board_trapped
