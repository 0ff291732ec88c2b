// Start of a Cortex-M board.
//
// The program has the stack of processes, which lies lowest in RAM, and what lies below RAM may not be written. Faults have a stack
// of their own, so that one that grew too far still ends in `trap`. A firmware that uses core-coupled memory opens that again.

    .syntax unified
    .thumb
    .set FAULT_STACK, 256

    .set MPU, 0xe000ed94
    .set ON_ABOVE_DEFAULTS, 5
    .set FROM_0, 0x10                           // the region 0, from address 0 on
    .set READ_ONLY, 6 << 24
    .set OF_MEMORY, 1 << 17
    .set UP_TO_RAM, 28 << 1 | 1                 // 512 MiB

    .section .start, "ax"
    .globl _start
vectors:
    .word fault_stack + FAULT_STACK
    .word _start
    .rept 14
    .word trap
    .endr

    .thumb_func
_start:
    ldr r0, =stack_high
    msr psp, r0
    movs r0, #2
    msr control, r0
    ldr r0, =MPU
    movs r1, #FROM_0
    str r1, [r0, #8]
    ldr r1, =READ_ONLY | OF_MEMORY | UP_TO_RAM
    str r1, [r0, #12]
    movs r1, #ON_ABOVE_DEFAULTS
    str r1, [r0]
    dsb
    isb
    ldr r0, =bss_low
    ldr r1, =bss_high
    movs r2, #0
1:  cmp r0, r1
    bhs 2f
    str r2, [r0], #4
    b 1b
2:  bl board_start
3:  b 3b

// A stack that grew too far, or an access that no memory answers: the board ends with status 99.
    .thumb_func
trap:
    ldr r1, =trapped
    movs r0, #0x20
    bkpt #0xab
    b trap
    .ltorg

    .section .rodata.trapped, "a"
    .balign 4
trapped:
    .word 0x20026, 99

    .section .bss.fault_stack, "aw", %nobits
    .balign 8
fault_stack:
    .skip FAULT_STACK
