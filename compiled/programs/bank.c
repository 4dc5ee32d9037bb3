/* Transfers between accounts. One that would overdraw is cancelled behind its writes. The sum never changes, and each
 * account has what its own list of transfers says. */
#include "program.h"

enum { ACCOUNTS = 48, OPENING = 100 };
static struct {
    long account[ACCOUNTS];
    unsigned done;
} shared;
static long moved[MOST_THREADS][ACCOUNTS]; /* what each thread brought to an account */
static unsigned went[MOST_THREADS];

static bool transfer(int from, int to, int amount) {
    bool enough = false;
    __transaction_atomic {
        shared.account[to] += amount;
        let_others_run();
        shared.account[from] -= amount;
        if (shared.account[from] < 0) __transaction_cancel;
        shared.done++;
        enough = true;
    }
    return enough;
}

static long sum(void) {
    long sum = 0;
    __transaction_atomic {
        for (int i = 0; i < ACCOUNTS; i++) sum += shared.account[i];
    }
    return sum;
}

void work(int thread, unsigned long *seed) {
    for (int i = 0; i < rounds; i++) {
        int from = pick(seed, ACCOUNTS), to = pick(seed, ACCOUNTS), amount = 1 + pick(seed, 80);
        if (transfer(from, to, amount)) {
            went[thread]++;
            moved[thread][from] -= amount;
            moved[thread][to] += amount;
        }
        if (i % 16 == 0) check(sum() == ACCOUNTS * OPENING, "a sum");
    }
}

void before(void) {
    for (int i = 0; i < ACCOUNTS; i++) shared.account[i] = OPENING;
}

bool after(void) {
    unsigned done = 0;
    for (int i = 0; i < ACCOUNTS; i++) {
        long due = OPENING;
        for (int t = 0; t < threads; t++) due += moved[t][i];
        check(shared.account[i] == due && due >= 0, "an account");
    }
    for (int t = 0; t < threads; t++) done += went[t];
    return shared.done == done;
}
