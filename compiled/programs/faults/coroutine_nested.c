/* A coroutine on a stack of its own, in the heap or in pages. Within its block a function has a block that may be cancelled,
 * and changes its own frame there; it returns, and then the outer block is cancelled: that frame is not put back. */
#include "fault.h"
#include <sys/mman.h>
#include <ucontext.h>

enum { SIZE = 1 << 17, ROUNDS = 500, WORDS = 24 };
static long shared, other;
static bool in_heap;
static __thread struct turn {
    ucontext_t caller, callee;
    int number;
} turn;

SAFE static void add(long *to, long n) {
    *to += n;
}

SAFE static long inside(long n) {
    long words[WORDS], sum = 0;
    for (int i = 0; i < WORDS; i++) words[i] = 0;
    __transaction_atomic {
        for (int i = 0; i < WORDS; i++) add(&words[i], n + i);
        add(&other, 1);
        if (n % 7 == 6) __transaction_cancel;
    }
    for (int i = 0; i < WORDS; i++) sum += words[i];
    return sum;
}

SAFE static long deeper(long n, int depth) {
    long words[4] = {0};
    add(&words[depth % 4], n);
    return depth ? deeper(n, depth - 1) + words[depth % 4] : inside(n);
}

static void body(void) {
    long n = turn.number;
    __transaction_atomic {
        add(&shared, 1);
        add(&shared, 0 * deeper(n, n % 5));
        if (n % 2) __transaction_cancel;
    }
}

static void *work(void *none) {
    char *stack = in_heap ? malloc(SIZE) : mmap(0, SIZE, PROT_READ | PROT_WRITE, MAP_PRIVATE | MAP_ANONYMOUS, -1, 0);
    for (int i = 0; i < ROUNDS; i++) {
        turn.number = i;
        getcontext(&turn.callee);
        turn.callee.uc_stack.ss_sp = stack;
        turn.callee.uc_stack.ss_size = SIZE;
        turn.callee.uc_link = &turn.caller;
        makecontext(&turn.callee, body, 0);
        swapcontext(&turn.caller, &turn.callee);
    }
    return none;
}

static void check(void) {
    long due = 0;
    shared = other = 0;
    run_all(threads, work);
    for (int i = 0; i < ROUNDS; i += 2) due += i % 7 != 6;
    CHECK(shared == threads * (ROUNDS / 2L), "%ld outer blocks", shared);
    CHECK(other == due * threads, "%ld inner blocks", other);
}

int main(int count, char **words) {
    take_words(count, words);
    check();
    in_heap = true;
    check();
    return done();
}
