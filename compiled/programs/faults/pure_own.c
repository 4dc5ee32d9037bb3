/* Not served, see docs/COMPILED.md: a pure function looks at what its block has just written, and writes itself to a word that
 * the block has read. */
#include "fault.h"

static struct {
    long written;
    int read, added;
} shared;

PURE static long peek(long *at) {
    return *(volatile long *)at;
}

PURE static void poke(int *at) {
    ++*(volatile int *)at;
}

int main(void) {
    long saw = -1;
    int read = -1, added = -1;
    __transaction_atomic {
        shared.written = 5;
        saw = peek(&shared.written);
    }
    CHECK(saw == 5, "a pure function saw %ld", saw);
    shared.read = 1, shared.added = 1;
    __transaction_atomic {
        read = shared.read;
        poke(&shared.added);
        added = shared.added;
    }
    CHECK(read == 1 && added == 2, "after a pure function's store: %d and %d", read, added);
    return done();
}
