/* A thread-local variable and a local one of each thread, of which the others take a pointer while their owner has
 * transactions on it open: no update is lost, from the first access on. */
#include "program.h"

static __thread long in_tls;
static long *_Atomic tls_of[MOST_THREADS], *_Atomic local_of[MOST_THREADS];
static long done[MOST_THREADS][2][MOST_THREADS];
static long others;
static pthread_barrier_t all_begin, all_done;

PURE static void wait_inside(int turns) {
    while (turns--) sched_yield();
}

static bool add(long *p, int wait, bool back) {
    bool went = false;
    __transaction_atomic {
        long was = *p;
        if (wait) wait_inside(wait);
        *p = was + 1;
        others = others + 1;
        if (back) __transaction_cancel;
        went = true;
    }
    return went;
}

/* The owner knows the address well, and asks for no pointer. */
static bool add_own(int wait, bool back) {
    bool went = false;
    __transaction_atomic {
        long was = in_tls;
        if (wait) wait_inside(wait);
        in_tls = was + 1;
        if (back) __transaction_cancel;
        went = true;
    }
    return went;
}

void work(int thread, unsigned long *seed) {
    long local = 0;
    in_tls = 0;
    tls_of[thread] = &in_tls;
    local_of[thread] = &local;
    pthread_barrier_wait(&all_begin);
    for (int i = 0; i < rounds; i++) {
        bool back = pick(seed, 5) == 0;
        int wait = pick(seed, 16) ? 0 : 4, which = pick(seed, threads);
        switch (pick(seed, 4)) {
        case 0: done[thread][0][thread] += add_own(wait, back); break;
        case 1: done[thread][1][thread] += add(&local, wait, back); break;
        case 2: done[thread][0][which] += add(tls_of[which], wait, back); break;
        default: done[thread][1][which] += add(local_of[which], wait, back);
        }
    }
    pthread_barrier_wait(&all_done);
    long tls_due = 0, local_due = 0;
    for (int t = 0; t < threads; t++) tls_due += done[t][0][thread], local_due += done[t][1][thread];
    check(in_tls == tls_due, "a thread-local variable");
    check(local == local_due, "a local variable");
}

void before(void) {
    pthread_barrier_init(&all_begin, 0, threads);
    pthread_barrier_init(&all_done, 0, threads);
}

bool after(void) {
    return true;
}
