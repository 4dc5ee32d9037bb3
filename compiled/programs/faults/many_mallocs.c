/* A block that allocates much, out of memory that was used before in no order: by far less than the square of its number. */
#include "fault.h"

enum { COUNT = 100000 };
static void *row[COUNT];
static long sum;

static void use_before(void) {
    uint64_t seed = 12345;
    for (int i = 0; i < COUNT; i++) row[i] = malloc(40), malloc(24);
    for (int i = COUNT - 1; i > 0; i--) {
        seed = seed * 6364136223846793005ul + 1;
        int k = (seed >> 33) % (i + 1);
        void *had = row[i];
        row[i] = row[k], row[k] = had;
    }
    for (int i = 0; i < COUNT; i++) free(row[i]);
}

static void fill(bool back) {
    __transaction_atomic {
        for (long i = 0; i < COUNT; i++) {
            long *p = malloc(40);
            *p = i;
            row[i] = p;
            sum += i;
        }
        if (back) __transaction_cancel;
    }
}

int main(void) {
    long all = 0;
    use_before();
    double from = seconds(CLOCK_PROCESS_CPUTIME_ID);
    fill(true);
    fill(false);
    double spent = seconds(CLOCK_PROCESS_CPUTIME_ID) - from;
    for (int i = 0; i < COUNT; i++) all += *(long *)row[i];
    CHECK(sum == all && all == COUNT * (COUNT - 1l) / 2, "%ld and %ld", sum, all);
    CHECK(spent < 1, "%.2f s", spent);
    return done();
}
