/* Counters in one thread's stack and thread-local storage, to which all threads add, the owner too. None may be lost, not
 * even where the first use by another thread comes while the owner's transaction is open. */
#include <pthread.h>
#include <sched.h>
#include <stdio.h>
#include <stdlib.h>

enum { ROUNDS = 500, TIMES = 40, MOST = 2000 };
static __thread long local;
static long *its_local, *on_its_stack, *on_main;
static volatile int is_open, is_passed;
static pthread_barrier_t line;

/* Until another thread has been there, which it may have to wait with. */
__attribute__((transaction_pure, noinline)) static void linger(void) {
    is_open = 1;
    for (int i = 0; i < MOST && !is_passed; i++) sched_yield();
}

__attribute__((transaction_safe, noinline)) static void add(long *to) {
    *to += 1;
}

/* What others add in the meantime may not be taken back with it. */
static void cancelled(void) {
    __transaction_atomic {
        add(its_local);
        add(on_its_stack);
        linger();
        __transaction_cancel;
    }
}

static void work(int rounds) {
    for (int i = 0; i < rounds; i++)
        __transaction_atomic {
            add(its_local);
            add(on_its_stack);
            add(on_main);
        }
}

static void *owner(void *p) {
    long here = 0;
    local = 0;
    its_local = &local;
    on_its_stack = &here;
    pthread_barrier_wait(&line);
    cancelled();
    work(ROUNDS);
    pthread_barrier_wait(&line);
    *(long *)p = local == here ? here : -1;
    return 0;
}

static void *other(void *none) {
    pthread_barrier_wait(&line);
    while (!is_open) sched_yield();
    work(1);
    is_passed = 1;
    work(ROUNDS - 1);
    pthread_barrier_wait(&line);
    return none;
}

int main(int count, char **words) {
    pthread_t t[64];
    int threads = count > 1 ? atoi(words[1]) : 1, wrong = 0;
    for (int time = 0; time < TIMES; time++) {
        long got = 0, mine = 0;
        on_main = &mine;
        is_open = 0;
        is_passed = threads == 1;
        pthread_barrier_init(&line, 0, threads);
        for (int i = 0; i < threads; i++) pthread_create(&t[i], 0, i ? other : owner, i ? 0 : &got);
        for (int i = 0; i < threads; i++) pthread_join(t[i], 0);
        wrong |= got != (long)threads * ROUNDS || mine != got;
    }
    printf("%s\n", wrong ? "updates of locals are lost" : "right");
    return wrong;
}
