/* 300 threads that are there at once, none of which waits for another: all get their turn. */
#include "program.h"

enum { MANY = 300 };
static struct {
    long n, lives;
} shared;

static void *life(void *number) {
    for (int i = 0; i < rounds; i++)
        __transaction_atomic { shared.n += (long)number; }
    __transaction_atomic { shared.lives++; }
    return 0;
}

void work(int thread, unsigned long *seed) {
    (void)seed;
    if (thread) return;
    pthread_t made[MANY];
    pthread_attr_t small;
    pthread_attr_init(&small);
    pthread_attr_setstacksize(&small, 1 << 17);
    for (long i = 0; i < MANY; i++)
        if (pthread_create(&made[i], &small, life, (void *)i)) abort();
    for (int i = 0; i < MANY; i++) pthread_join(made[i], 0);
}

void before(void) {
    if (rounds > 2000) rounds = 2000;
}

bool after(void) {
    return shared.lives == MANY && shared.n == (long)rounds * MANY * (MANY - 1) / 2;
}
