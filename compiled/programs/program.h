/* The frame of the programs here: threads run `work` at once, and `after` says whether all sums are right.
 *
 *     PROGRAM [THREADS [ROUNDS]]
 *
 * One line tells `right`, or what was wrong first. The exit status is 0 where all is right, else 1. */
#ifndef PROGRAM_H
#define PROGRAM_H
#define _GNU_SOURCE
#include <pthread.h>
#include <sched.h>
#include <stdatomic.h>
#include <stdbool.h>
#include <stdint.h>
#include <stdio.h>
#include <stdlib.h>
#include <string.h>

#define SAFE __attribute__((transaction_safe, noinline))
#define PURE __attribute__((transaction_pure, noinline))

enum { MOST_THREADS = 64 };
static int threads = 4, rounds = 300;

void before(void);                           /* fills the shared memory */
void work(int thread, unsigned long *seed);  /* what each thread does */
bool after(void);                            /* whether the shared memory is right */

static pthread_barrier_t start_line;
static atomic_bool is_wrong;

static inline void complain(const char *what) {
    if (!atomic_exchange(&is_wrong, true)) printf("wrong: %s\n", what);
}

static inline void check(bool right, const char *what) {
    if (!right) complain(what);
}

/* A number below `limit`. */
static inline unsigned pick(unsigned long *seed, unsigned limit) {
    *seed ^= *seed << 13, *seed ^= *seed >> 7, *seed ^= *seed << 17;
    return (*seed >> 20) % limit;
}

/* Called inside transactions: so that tries meet also where there are fewer processors than threads. */
PURE __attribute__((unused)) static void let_others_run(void) {
    static __thread unsigned calls;
    if (threads > 1 && ++calls % 16 == 0) sched_yield();
}

static void *run_thread(void *number) {
    unsigned long seed = 88172645463325252ul + 7919 * (unsigned long)number;
    pthread_barrier_wait(&start_line);
    work((int)(long)number, &seed);
    return 0;
}

/* The main thread is one of them. */
static inline void run_threads(void) {
    pthread_t thread[MOST_THREADS];
    pthread_barrier_init(&start_line, 0, threads);
    for (long i = 1; i < threads; i++)
        if (pthread_create(&thread[i], 0, run_thread, (void *)i)) abort();
    run_thread(0);
    for (int i = 1; i < threads; i++) pthread_join(thread[i], 0);
    pthread_barrier_destroy(&start_line);
}

static int run_program(int count, char **words) {
    if (count > 1) threads = atoi(words[1]);
    if (count > 2) rounds = atoi(words[2]);
    if (threads < 1 || threads > MOST_THREADS || rounds < 1) {
        fputs("THREADS is a number from 1 to 64, ROUNDS one from 1 on\n", stderr);
        return 2;
    }
    before();
    run_threads();
    check(after(), "the shared memory");
    if (!is_wrong) puts("right");
    return is_wrong;
}

#ifndef OWN_MAIN
int main(int count, char **words) {
    return run_program(count, words);
}
#endif
#endif
