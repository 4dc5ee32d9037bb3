/* The frame of programs that have a main of their own: `PROGRAM [THREADS]`. They print `right`, or each thing that was wrong;
 * the exit status is 0, or 1, or 77 where the machine does not let them run. */
#ifndef FAULT_H
#define FAULT_H
#define _GNU_SOURCE
#include <pthread.h>
#include <sched.h>
#include <stdbool.h>
#include <stdint.h>
#include <stdio.h>
#include <stdlib.h>
#include <string.h>
#include <time.h>
#include <unistd.h>

#define SAFE __attribute__((transaction_safe, noinline))
#define PURE __attribute__((transaction_pure, noinline))
#define UNSAFE __attribute__((transaction_unsafe, noinline))

enum { MOST_THREADS = 64, SKIPPED = 77 };
static int threads = 4;
static bool is_wrong;

#define CHECK(RIGHT, ...)                                                      \
    do {                                                                       \
        if (RIGHT) break;                                                      \
        printf("wrong (line %d): ", __LINE__);                                 \
        printf(__VA_ARGS__);                                                   \
        puts("");                                                              \
        is_wrong = true;                                                       \
    } while (0)

__attribute__((unused)) static void take_words(int count, char **words) {
    if (count > 1) threads = atoi(words[1]);
    if (threads < 1 || threads > MOST_THREADS) exit(2);
}

__attribute__((unused)) static int skipped(void) {
    puts("skipped");
    return SKIPPED;
}

static int done(void) {
    if (!is_wrong) puts("right");
    return is_wrong;
}

__attribute__((unused)) static double seconds(clockid_t which) {
    struct timespec now;
    clock_gettime(which, &now);
    return now.tv_sec + now.tv_nsec * 1e-9;
}

static inline pthread_t started(void *(*run)(void *), void *argument) {
    pthread_t thread;
    pthread_attr_t small;
    pthread_attr_init(&small);
    pthread_attr_setstacksize(&small, 1 << 18);
    if (pthread_create(&thread, &small, run, argument)) exit(2);
    pthread_attr_destroy(&small);
    return thread;
}

/* So many threads run `run` at once, each with its number. */
__attribute__((unused)) static void run_all(int count, void *(*run)(void *)) {
    static pthread_t thread[MOST_THREADS];
    for (long i = 0; i < count; i++) thread[i] = started(run, (void *)i);
    for (int i = 0; i < count; i++) pthread_join(thread[i], 0);
}
#endif
