/* 200 threads that all wait for each other behind their first transaction: a runtime that has no place for so many has to
 * end the program with a message, rather than to hang. */
#include "program.h"

enum { MANY = 200 };
static long n;
static pthread_barrier_t all_there;

static void *life(void *number) {
    __transaction_atomic { n += (long)number; }
    pthread_barrier_wait(&all_there);
    __transaction_atomic { n += (long)number; }
    return 0;
}

void work(int thread, unsigned long *seed) {
    (void)seed;
    if (thread) return;
    pthread_t made[MANY];
    pthread_attr_t small;
    pthread_attr_init(&small);
    pthread_attr_setstacksize(&small, 1 << 17);
    for (long i = 0; i < MANY; i++)
        if (pthread_create(&made[i], &small, life, (void *)i)) abort();
    for (int i = 0; i < MANY; i++) pthread_join(made[i], 0);
}

void before(void) {
    pthread_barrier_init(&all_there, 0, MANY);
}

bool after(void) {
    return n == (long)MANY * (MANY - 1);
}
