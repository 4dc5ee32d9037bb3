/* Transactions have used 20 MB of pages that are no thread's. Threads that come later have their own variables for themselves
 * all the same: while one has changed its own in a transaction, another one's transaction goes on. (With libitm it waits, as
 * any thread's first one does while another is open.) */
#include "fault.h"
#include <sys/mman.h>

enum { SIZE = 20 << 20, STEP = 1 << 16, MOST = 2000 };
static long shared;
static volatile bool is_in, is_over;

SAFE static void add(long *to) {
    *to += 1;
}

SAFE static long look(const long *at) {
    return *at;
}

PURE static void linger(void) {
    is_in = true;
    for (int i = 0; i < MOST && !is_over; i++) usleep(1000);
}

static void *first(void *none) {
    long own = 0;
    __transaction_atomic {
        add(&own);
        linger();
    }
    CHECK(own == 1, "%ld", own);
    CHECK(is_over, "a transaction waited for one that uses its own variables");
    return none;
}

static void *second(void *none) {
    long own = 5, got;
    while (!is_in) usleep(100);
    __transaction_atomic { got = look(&own); }
    is_over = true;
    CHECK(got == 5, "%ld", got);
    return none;
}

int main(void) {
    char *pages = mmap(0, SIZE, PROT_READ | PROT_WRITE, MAP_PRIVATE | MAP_ANONYMOUS, -1, 0);
    for (long i = 0; i < SIZE; i += STEP)
        __transaction_atomic {
            pages[i]++;
            shared++;
        }
    pthread_t a = started(first, 0), b = started(second, 0);
    pthread_join(a, 0);
    pthread_join(b, 0);
    CHECK(shared == SIZE / STEP, "%ld", shared);
    return done();
}
