/* A program of two source files, of C and of C++: the other one tells what to add, and adds it up too. */
#include "half.h"
#include "../programs/program.h"

static long sum;

void before(void) {
}

void work(int thread, unsigned *seed) {
    (void)thread;
    for (int i = 0; i < rounds; i++) {
        long x = 2 * pick(seed, 8);
        __transaction_atomic { sum += half_of(x); }
    }
}

bool after(void) {
    return sum == halves();
}
