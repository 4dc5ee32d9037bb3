/* Real-time priorities on one processor: a thread of a low one is in a relaxed transaction, and sleeps there, as one of a high
 * one begins its own. To yield lets none of a lower priority run. */
#include "fault.h"

static long shared;
static volatile bool is_in;

UNSAFE static void nap(void) {
    is_in = true;
    for (int i = 0; i < 20; i++) {
        usleep(1000);
        for (volatile int k = 0; k < 100000; k++);
    }
}

static void *low(void *none) {
    __transaction_relaxed {
        shared++;
        nap();
        shared++;
    }
    return none;
}

static void *high(void *none) {
    while (!is_in) usleep(500);
    __transaction_atomic { shared += 10; }
    return none;
}

static bool start(pthread_t *thread, void *(*run)(void *), int priority) {
    pthread_attr_t attributes;
    struct sched_param wanted = {priority};
    pthread_attr_init(&attributes);
    pthread_attr_setinheritsched(&attributes, PTHREAD_EXPLICIT_SCHED);
    pthread_attr_setschedpolicy(&attributes, SCHED_FIFO);
    pthread_attr_setschedparam(&attributes, &wanted);
    return !pthread_create(thread, &attributes, run, 0);
}

int main(void) {
    cpu_set_t one;
    pthread_t a, b;
    CPU_ZERO(&one);
    CPU_SET(0, &one);
    sched_setaffinity(0, sizeof one, &one);
    double from = seconds(CLOCK_MONOTONIC);
    if (!start(&a, low, 10) || !start(&b, high, 20)) return skipped();
    pthread_join(a, 0);
    pthread_join(b, 0);
    CHECK(shared == 12, "%ld", shared);
    CHECK(seconds(CLOCK_MONOTONIC) - from < 5, "it took more than five seconds");
    return done();
}
