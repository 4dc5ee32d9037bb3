/* A plain int beside one that transactions add to: of the plain additions none may be lost, and no other. The default is
 * 3,000,000 of them; ROUNDS is not looked at. */
#include "program.h"

enum { PLAIN = 3000000 };
static struct {
    volatile int plain;
    int shared;
} both __attribute__((aligned(8)));

void work(int thread, unsigned long *seed) {
    (void)seed;
    if (thread == 0 && threads > 1)
        for (int i = 0; i < PLAIN; i++) both.plain++;
    else
        for (int i = 0; i < PLAIN / 10; i++)
            __transaction_atomic { both.shared++; }
}

void before(void) {
}

bool after(void) {
    int adders = threads > 1 ? threads - 1 : 1;
    if (both.plain != (threads > 1 ? PLAIN : 0)) printf("plain %d of %d\n", both.plain, PLAIN);
    return both.plain == (threads > 1 ? PLAIN : 0) && both.shared == adders * (PLAIN / 10);
}
