/* One thread sleeps half a second in a relaxed transaction. Those that wait for it leave the processor to others. */
#include "fault.h"

enum { NAP = 500000 };
static long shared;
static bool is_in;

UNSAFE static void nap(void) {
    usleep(NAP);
}

static void *holder(void *none) {
    __transaction_relaxed {
        shared++;
        __atomic_store_n(&is_in, true, __ATOMIC_SEQ_CST);
        nap();
    }
    return none;
}

static void *other(void *none) {
    while (!__atomic_load_n(&is_in, __ATOMIC_SEQ_CST)) usleep(100);
    __transaction_atomic { shared++; }
    return none;
}

int main(int count, char **words) {
    take_words(count, words);
    pthread_t thread = started(holder, 0);
    run_all(threads, other);
    pthread_join(thread, 0);
    double spent = seconds(CLOCK_PROCESS_CPUTIME_ID);
    CHECK(shared == threads + 1, "%ld", shared);
    CHECK(spent < 0.05 + 0.05 * threads, "%.2f s of processor time", spent);
    return done();
}
