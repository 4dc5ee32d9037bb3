/* Large transactions: of 512 KiB of words, all are read, a part is written, or all are filled or copied at once, with a commit
 * or a cancel. */
#include "program.h"

enum { WORDS = 1 << 16 };
static long row[WORDS], copy[WORDS];
static long done, added[MOST_THREADS], went[MOST_THREADS];

static bool add_to_all(long n, int step, bool back) {
    bool kept = false;
    __transaction_atomic {
        for (int i = 0; i < WORDS; i += step) row[i] += n;
        done = done + 1;
        if (back) __transaction_cancel;
        kept = true;
    }
    return kept;
}

static bool fill_and_copy(bool back) {
    bool kept = false;
    __transaction_atomic {
        memset(copy, 255, sizeof copy);
        memcpy(copy, row, sizeof copy);
        memmove(copy + 1, copy, sizeof copy - sizeof *copy);
        if (back) __transaction_cancel;
        kept = true;
    }
    return kept;
}

static long sum(const long *from) {
    long sum = 0;
    __transaction_atomic {
        for (int i = 0; i < WORDS; i++) sum += from[i];
        sum -= done;
    }
    return sum;
}

void work(int thread, unsigned long *seed) {
    enum { STEP = 32 };
    int turns = rounds < 2000 ? 5 : 20;
    for (int i = 0; i < turns; i++) {
        long n = pick(seed, 50);
        bool back = pick(seed, 3) == 0;
        if (add_to_all(n, STEP, back)) added[thread] += n * (WORDS / STEP), went[thread]++;
        if (i % 4 == 1) fill_and_copy(back);
        if (i % 4 == 2) check(sum(row) >= -done, "a sum");
    }
}

void before(void) {
}

bool after(void) {
    long due = 0, count = 0;
    for (int i = 0; i < threads; i++) due += added[i], count += went[i];
    check(sum(row) == due - count && done == count, "the row");
    check(fill_and_copy(false) && copy[0] == row[0], "the copy");
    for (int i = 1; i < WORDS; i++) check(copy[i] == row[i - 1], "the copy");
    return true;
}
