// Stacks of a task, for a Cortex-M without floating point. What a call must keep is pushed: r4 to r11, the return. r3 keeps the
// stack at a multiple of 8.
    .syntax unified
    .thumb
    .set kept, 40

    .text
    .globl switch_stack, new_stack

    .thumb_func
switch_stack:
    push {r3-r11, lr}
    mov r2, sp
    str r2, [r0]
    mov sp, r1
    pop {r3-r11, pc}

    .thumb_func
new_stack:
    subs r0, #kept
    str r1, [r0, #kept - 4]
    bx lr
