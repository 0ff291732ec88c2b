// ARM's divisions of 64 bits: the quotient in r0 and r1, the rest in r2 and r3.
    .syntax unified
    .thumb
    .text
    .globl __aeabi_uldivmod, __aeabi_ldivmod

    .macro divide_by name
    push {r4, lr}
    sub sp, #16
    add r4, sp, #8
    str r4, [sp]
    bl \name
    ldrd r2, r3, [sp, #8]
    add sp, #16
    pop {r4, pc}
    .endm

    .thumb_func
__aeabi_uldivmod:
    divide_by divide_unsigned

    .thumb_func
__aeabi_ldivmod:
    divide_by divide_signed
