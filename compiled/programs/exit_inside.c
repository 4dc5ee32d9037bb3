/* A thread that ends inside of an irrevocable transaction: a runtime may end the program with a message, or let the others
 * go on. It may not hang, and not lose what they do. */
#include "program.h"

static long n, inside;

__attribute__((transaction_unsafe, noinline)) static void end(void) {
    pthread_exit(0);
}

static void *life(void *none) {
    __transaction_relaxed {
        inside++;
        end();
    }
    return none;
}

void work(int thread, unsigned long *seed) {
    (void)seed;
    for (int i = 0; i < rounds; i++) {
        if (thread == 0 && i == rounds / 2) {
            pthread_t made;
            if (pthread_create(&made, 0, life, 0)) abort();
            pthread_join(made, 0);
        }
        __transaction_atomic { n++; }
    }
}

void before(void) {
}

bool after(void) {
    return n == (long)rounds * threads;
}
