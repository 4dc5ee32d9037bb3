/* A library for loads.c and late.c: data of its own, and transactions on them and on what it is given. */
#include <stdbool.h>

static long own[16];
long given[16];

__attribute__((transaction_safe, noinline)) long plug_add(long *more, int i, long n) {
    own[i & 15] += n;
    *more += n;
    return own[i & 15];
}

bool plug_turn(long *more, int i, long n, bool back) {
    bool done = false;
    __transaction_atomic {
        plug_add(more, i, n);
        given[i & 15] = given[i & 15] + n;
        if (back) __transaction_cancel;
        done = true;
    }
    return done;
}

long plug_sum(void) {
    long sum = 0;
    __transaction_atomic {
        for (int i = 0; i < 16; i++) sum += own[i];
        for (int i = 0; i < 16; i++) sum += given[i];
    }
    return sum;
}
