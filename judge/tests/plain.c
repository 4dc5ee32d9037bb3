/* Stores plainly between two transactions on the same place, bytes that freed memory is filled with, and says so. */
#include <stdio.h>

static long x;
long seen;

__attribute__((noipa)) static void store(void) {
    x = 0xdbdbdbdbdbdbdbdb;
    puts("stored");
}

int main(void) {
    __transaction_atomic { x = 1; }
    store();
    __transaction_atomic { seen = x; }
}
