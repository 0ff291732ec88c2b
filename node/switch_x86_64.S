# Two stacks of a thread, for x86-64 as System V has it. What a call must keep is pushed: rbx, rbp, r12 to r15.
    .text
    .globl switch_stack, new_stack

switch_stack:
    push %rbx
    push %rbp
    push %r12
    push %r13
    push %r14
    push %r15
    mov %rsp, (%rdi)
    mov %rsi, %rsp
    pop %r15
    pop %r14
    pop %r13
    pop %r12
    pop %rbp
    pop %rbx
    ret

# six registers, the return, and where the caller of `begin` would go on: nowhere
new_stack:
    lea -64(%rdi), %rax
    mov %rsi, 48(%rax)
    movq $0, 56(%rax)
    ret

    .section .note.GNU-stack, "", @progbits
