/* Small and large data, which a linker may put into two writable parts of the program (-mcmodel=medium): no addition is lost,
 * and words that nobody writes stay. */
#include "program.h"

enum { WORDS = 1 << 14 };
static long large[WORDS] = {0, 0, 7}, small = 5;

void before(void) {}

void work(int thread, unsigned long *seed) {
    (void)thread, (void)seed;
    for (int i = 0; i < 200 * rounds; i++) {
        __transaction_atomic {
            small++;
            large[2]++;
            large[WORDS - 1]++;
        }
    }
}

bool after(void) {
    long sum = 200l * rounds * threads;
    return small == 5 + sum && large[2] == 7 + sum && large[WORDS - 1] == sum && !large[0] && !large[1] && !large[3];
}
