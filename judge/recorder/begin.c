/* Begins. The runtime saves its caller's registers and place on the stack, and comes back there as often as it likes.
 * So the call is passed on by a jump, with the stack as it was, but for the address to which it returns: that is
 * begin_returned, which notes the answer and asks where the program goes on. */
#include "recorder.h"
#include <unistd.h>

void *runtime_begin;

static void open_try(struct thread *t, uint32_t props, int number) {
    t->depth = 1;
    t->low = t->seen;
    t->wrote = t->mixed = false;
    t->own_count = t->arena = 0;
    t->block[0].begin = note(t, TRY, 0, props, number, 0, 0);
}

/* While the recording is written, no attempt begins. */
static void wait_while_stopping(void) {
    while (stopping) usleep(1000);
}

static void open_inner(struct thread *t, uint32_t props) {
    if (t->depth == BLOCKS) fail("%d blocks are open", BLOCKS);
    if (t->depth < DEEPEST) t->block[t->depth].begin = note(t, BEGIN, 0, props, 0, 0, 0);
    t->depth++;
}

/* Before a begin is passed on. The properties for the runtime: code without barriers must not run where there is some
 * with them, as nothing of it would be seen. An inner block with barriers becomes irrevocable by its mode call alone.
 * */
uint32_t begin_called(uint32_t props, void *back) {
    struct thread *t = before();
    bool has_barriers = props & INSTRUMENTED;
    uint32_t told = has_barriers ? props : props | GOES_IRREVOCABLE;
    if (t) {
        open_inner(t, has_barriers ? told & ~GOES_IRREVOCABLE : told);
    } else {
        t = self ? self : new_thread();
        wait_while_stopping();
        t->seen = commits_returned();
        open_try(t, told, 1);
    }
    t->block[t->depth - 1].back = back;
    return has_barriers ? props & ~UNINSTRUMENTED : props;
}

static void entered_again(struct thread *t) {
    const struct event *begin = t->block[0].begin;
    try_ended(t, "conflict");
    wait_while_stopping();
    open_try(t, begin->a, begin->b < LAST_TRY ? begin->b + 1 : LAST_TRY);
}

static void *block_cancelled(struct thread *t) {
    if (t->target >= DEEPEST) fail("a block deeper than %d was cancelled", DEEPEST);
    note(t, ABORT, 0, t->reason, 0, 0, 0);
    if (!t->target) {
        try_ended(t, "cancelled");
    } else {
        t->depth = t->target;
        note_own(t, LOAD, __builtin_frame_address(0));
    }
    return t->block[t->target].back;
}

/* A begin has answered. The place where the program goes on. */
void *begin_answered(uint32_t code) {
    struct thread *t = self;
    if (code & CANCELLED) return block_cancelled(t);
    if (code & AGAIN) entered_again(t);
    t->seen = commits_returned();
    int last = t->depth - 1;
    bool goes = last < DEEPEST && t->block[last].begin->a & GOES_IRREVOCABLE;
    if (goes && !t->irrevocable) become_irrevocable(t);
    return t->block[last].back;
}

__asm__(".text\n.globl _ITM_beginTransaction\n.type _ITM_beginTransaction,@function\n"
        "_ITM_beginTransaction:\n"
        "    movq (%rsp), %rsi\n    subq $8, %rsp\n"
        "    call begin_called\n"
        "    addq $8, %rsp\n    movl %eax, %edi\n"
        "    leaq begin_returned(%rip), %rax\n    movq %rax, (%rsp)\n"
        "    xorl %eax, %eax\n    jmp *runtime_begin(%rip)\n"
        "begin_returned:\n"
        "    subq $16, %rsp\n    movl %eax, (%rsp)\n    movl %eax, %edi\n"
        "    call begin_answered\n"
        "    movq %rax, %rdx\n    movl (%rsp), %eax\n"
        "    addq $16, %rsp\n    jmp *%rdx\n"
        ".size _ITM_beginTransaction,.-_ITM_beginTransaction\n");
