/* Two coroutines whose stacks are parts of one array on the thread's own stack. A block on the upper one changes a variable
 * of the lower one, which lies below the begin and is no frame of the block's calls: it is put back with a cancel. (Libitm
 * leaves the additions of cancelled blocks from -O1 on.) */
#include "fault.h"
#include <ucontext.h>

enum { SIZE = 1 << 16, ROUNDS = 3000 };
struct pair {
    ucontext_t caller, low, high;
    long *variable, due;
    bool back;
};
static long shared, due_of[MOST_THREADS];
static __thread struct pair *pair;

SAFE static void add(long *to, long n) {
    *to += n;
}

PURE static void let_others_run(void) {
    static __thread unsigned calls;
    if (++calls % 8 == 0) sched_yield();
}

static void run_high(void) {
    struct pair *p = pair;
    for (;;) {
        __transaction_atomic {
            add(p->variable, 1);
            add(&shared, 1);
            let_others_run();
            add(p->variable, 1);
            add(&shared, 1);
            if (p->back) __transaction_cancel;
        }
        swapcontext(&p->high, &p->low);
    }
}

static void run_low(void) {
    struct pair *p = pair;
    long words[4] = {0};
    p->variable = &words[2];
    for (int i = 0; i < ROUNDS; i++) {
        p->back = i % 3 == 0;
        if (!p->back) p->due += 2;
        swapcontext(&p->low, &p->high);
        long is = *(volatile long *)&words[2];
        if (is == p->due) continue;
        CHECK(false, "round %d: %ld, due %ld", i, is, p->due);
        break;
    }
    swapcontext(&p->low, &p->caller);
}

static void make(ucontext_t *context, char *stack, void (*run)(void), ucontext_t *next) {
    getcontext(context);
    context->uc_stack.ss_sp = stack;
    context->uc_stack.ss_size = SIZE;
    context->uc_link = next;
    makecontext(context, run, 0);
}

static void *work(void *number) {
    struct pair p = {0};
    char room[2 * SIZE] __attribute__((aligned(64)));
    pair = &p;
    make(&p.low, room, run_low, &p.caller);
    make(&p.high, room + SIZE, run_high, &p.caller);
    swapcontext(&p.caller, &p.low);
    due_of[(long)number] = p.due;
    return 0;
}

int main(int count, char **words) {
    long due = 0;
    take_words(count, words);
    run_all(threads, work);
    for (int i = 0; i < threads; i++) due += due_of[i];
    CHECK(shared == due, "%ld of %ld", shared, due);
    return done();
}
