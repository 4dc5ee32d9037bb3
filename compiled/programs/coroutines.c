/* Transactions on stacks of the program's own, which lie above those of its threads. What they change in a frame of the thread's
 * stack is put back with a cancel. */
#include "program.h"
#include <sys/mman.h>
#include <ucontext.h>

enum { SIZE = 1 << 17 };
static char *stacks;
static struct turn {
    ucontext_t caller, callee;
    long *own, n;
    bool back;
} turns[MOST_THREADS];
static long shared, due[MOST_THREADS];

static void body(int thread) {
    struct turn *t = &turns[thread];
    long *own = t->own, n = t->n;
    bool back = t->back;
    __transaction_atomic {
        shared += n;
        *own += n;
        let_others_run();
        if (back) __transaction_cancel;
    }
}

void work(int thread, unsigned long *seed) {
    struct turn *t = &turns[thread];
    long own = 0, sum = 0;
    for (int i = 0; i < rounds; i++) {
        t->own = &own, t->n = 1 + pick(seed, 9), t->back = pick(seed, 3) == 0;
        getcontext(&t->callee);
        t->callee.uc_stack.ss_sp = stacks + thread * SIZE;
        t->callee.uc_stack.ss_size = SIZE;
        t->callee.uc_link = &t->caller;
        makecontext(&t->callee, (void (*)(void))body, 1, thread);
        swapcontext(&t->caller, &t->callee);
        if (!t->back) sum += t->n;
        check(*(volatile long *)&own == sum, "a variable of the thread's own frame");
    }
    due[thread] = sum;
}

void before(void) {
    stacks = mmap(0, MOST_THREADS * SIZE, PROT_READ | PROT_WRITE, MAP_PRIVATE | MAP_ANONYMOUS, -1, 0);
    if (stacks == MAP_FAILED) abort();
}

bool after(void) {
    long sum = 0, is;
    for (int i = 0; i < threads; i++) sum += due[i];
    __transaction_atomic { is = shared; }
    return is == sum;
}
