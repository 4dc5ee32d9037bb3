/* A begin keeps what a call has to keep, and may return again: the frames above it are there still, since the function
 * that has the block has not returned. */
    .text

/* Into a struct registers. */
    .macro keep segment, at
    movq %rbx, \segment 0(\at)
    movq %rbp, \segment 8(\at)
    movq %r12, \segment 16(\at)
    movq %r13, \segment 24(\at)
    movq %r14, \segment 32(\at)
    movq %r15, \segment 40(\at)
    movq %rdx, \segment 48(\at)
    movq %rcx, \segment 56(\at)
    .endm

    .globl _ITM_beginTransaction
    .type _ITM_beginTransaction, @function
_ITM_beginTransaction:
    .cfi_startproc
    movq tx@gottpoff(%rip), %rax
    leaq 8(%rsp), %rdx
    movq (%rsp), %rcx
    cmpl $0, %fs:112(%rax)  /* no block is open; blocks.c checks that these lie so */
    jne 1f
    keep %fs:, %rax         /* the outermost one's */
    jmp begin_outermost
1:  subq $72, %rsp
    .cfi_def_cfa_offset 80
    movq %rsp, %rsi
    keep , %rsi
    call begin_inner
    addq $72, %rsp
    .cfi_def_cfa_offset 8
    ret
    .cfi_endproc
    .size _ITM_beginTransaction, .-_ITM_beginTransaction

    .globl return_again
    .hidden return_again
    .type return_again, @function
return_again:
    movl %edi, %eax
    movq 0(%rsi), %rbx
    movq 8(%rsi), %rbp
    movq 16(%rsi), %r12
    movq 24(%rsi), %r13
    movq 32(%rsi), %r14
    movq 40(%rsi), %r15
    movq 56(%rsi), %rdx
    movq 48(%rsi), %rsp
    jmp *%rdx
    .size return_again, .-return_again

    .section .note.GNU-stack, "", @progbits
