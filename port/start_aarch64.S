// Start of a 64-bit ARM board, in EL1 with the MMU off.
//
// The program reads and writes numbers at odd places. With the MMU off all memory is a device's, where such accesses trap, so it
// goes on first: the chips and the port stay a device, memory becomes memory. The code may not be written, and it lies below the
// stack: one that grows too far ends in `trap`, and not in other data.

    .section .start, "ax"
    .globl _start
_start:
    adrp x0, first_table
    add x0, x0, :lo12:first_table
    msr ttbr0_el1, x0
    // attribute 0 is a device's, 1 memory's that is kept in caches
    mov x0, #0xff00
    msr mair_el1, x0
    // 31 bits of address in pages of 4 KiB; tables lie in memory that is kept in caches, and there is no upper half
    ldr x0, =0x803521
    msr tcr_el1, x0
    tlbi vmalle1
    ic iallu
    dsb sy
    isb
    // MMU and caches on, accesses at odd places allowed
    mrs x0, sctlr_el1
    mov x1, #0x1005
    orr x0, x0, x1
    bic x0, x0, #2
    msr sctlr_el1, x0
    // vector registers may be used
    mov x0, #(3 << 20)
    msr cpacr_el1, x0
    adrp x0, vectors
    add x0, x0, :lo12:vectors
    msr vbar_el1, x0
    isb
    adrp x0, stack_high
    add x0, x0, :lo12:stack_high
    mov sp, x0
    adrp x0, bss_low
    add x0, x0, :lo12:bss_low
    adrp x1, bss_high
    add x1, x1, :lo12:bss_high
1:  cmp x0, x1
    b.hs 2f
    str xzr, [x0], #8
    b 1b
2:  bl board_start
3:  b 3b
    .ltorg

    .balign 2048
vectors:
    .rept 16
    .balign 128
    b trap
    .endr

// A stack that grew too far, or an access that no memory answers: the board ends with status 99.
trap:
    adrp x1, trapped
    add x1, x1, :lo12:trapped
    mov x0, #0x18
    hlt #0xf000
    b trap

    .section .rodata.tables, "a"
    .balign 16
trapped:
    .quad 0x20026, 99

    .set BLOCK, 0x401                           // a block that has been used
    .set NEVER_RUN, 3 << 53
    .set MEMORY, 1 << 2 | 3 << 8                // attribute 1, seen alike by all
    .set READ_ONLY, 2 << 6

    .balign 64
first_table:                                    // a GiB each: the chips and the port, and memory
    .quad BLOCK | NEVER_RUN
    .quad second_table + 3

    .balign 4096
second_table:                                   // 2 MiB each, from the start of memory on
    .quad 0
    .quad 0x40200000 + (BLOCK | MEMORY | READ_ONLY)
    .quad 0x40400000 + (BLOCK | MEMORY | NEVER_RUN)
    .quad 0x40600000 + (BLOCK | MEMORY | READ_ONLY | NEVER_RUN)
    .skip 4096 - 4 * 8
