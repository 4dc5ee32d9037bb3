/* Far more threads than may be there at once, one after another and some at a time: each has transactions and ends. */
#include "program.h"

enum { EACH = 150 };
static struct {
    long n, lives;
} shared;

static void *life(void *number) {
    for (int i = 0; i < 5; i++)
        __transaction_atomic { shared.n += (long)number; }
    __transaction_atomic { shared.lives++; }
    return 0;
}

void work(int thread, unsigned long *seed) {
    (void)seed;
    for (int i = 0; i < EACH; i++) {
        pthread_t made;
        if (pthread_create(&made, 0, life, (void *)(long)(thread + 1))) abort();
        pthread_join(made, 0);
    }
}

void before(void) {
}

bool after(void) {
    return shared.lives == (long)EACH * threads && shared.n == 5l * EACH * threads * (threads + 1) / 2;
}
