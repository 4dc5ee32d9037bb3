/* Hangs after 100 blocks. */
#include <unistd.h>

static long x;

int main(void) {
    for (int i = 0; i < 100; i++)
        __transaction_atomic { x++; }
    for (;;) pause();
}
