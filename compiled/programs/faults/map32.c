/* A page below 2 GB, behind the heap of a program at a fixed place and so in the region, is unmapped while another thread's
 * open transaction has a pointer to it.
 * Built with -no-pie */
#include "fault.h"
#include <sys/mman.h>

enum { MOST = 20000, SIZE = 4096 };
static long *head, sum;
static volatile bool is_in, is_out;

PURE static void linger(void) {
    is_in = true;
    for (int i = 0; i < MOST && !is_out; i++) sched_yield();
}

static void *reader(void *none) {
    __transaction_atomic {
        long *n = head;
        linger();
        if (n) sum += *n;
    }
    return none;
}

static void *freer(void *none) {
    long *n;
    while (!is_in) sched_yield();
    __transaction_atomic { n = head, head = 0; }
    munmap(n, SIZE);
    is_out = true;
    return none;
}

int main(void) {
    for (int i = 0; i < 3; i++) {
        head = mmap(0, SIZE, PROT_READ | PROT_WRITE, MAP_PRIVATE | MAP_ANONYMOUS | MAP_32BIT, -1, 0);
        if (head == MAP_FAILED) return skipped();
        *head = 7;
        is_in = is_out = false;
        sum = 0;
        pthread_t a = started(reader, 0), b = started(freer, 0);
        pthread_join(a, 0);
        pthread_join(b, 0);
        CHECK(sum == 0 || sum == 7, "the sum is %ld", sum);
    }
    return done();
}
