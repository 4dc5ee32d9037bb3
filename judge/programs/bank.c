/* Transfers between accounts, and audits that read them all: the sum is kept. */
#include "program.h"

enum { ACCOUNTS = 32, EACH = 1000 };
static struct {
    long balance[ACCOUNTS];
} shared;

static void transfer(unsigned from, unsigned to, long amount) {
    __transaction_atomic {
        if (shared.balance[from] >= amount) {
            shared.balance[from] -= amount;
            shared.balance[to] += amount;
        }
    }
}

static bool sum_is_kept(void) {
    long sum = 0;
    __transaction_atomic {
        for (int i = 0; i < ACCOUNTS; i++) sum += shared.balance[i];
    }
    return sum == ACCOUNTS * EACH;
}

void work(int thread, unsigned *seed) {
    (void)thread;
    for (int i = 0; i < rounds; i++) {
        unsigned from = pick(seed, ACCOUNTS), to = pick(seed, ACCOUNTS);
        if (pick(seed, 8)) transfer(from, to, pick(seed, 100));
        else if (!sum_is_kept()) complain("bank: an audit found another sum");
    }
}

void before(void) {
    for (int i = 0; i < ACCOUNTS; i++) shared.balance[i] = EACH;
}

bool after(void) {
    return sum_is_kept();
}
