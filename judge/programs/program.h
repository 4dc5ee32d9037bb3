/* The frame of the programs here: threads run `work` at once.
 *
 *     PROGRAM [THREADS [ROUNDS]] */
#include <pthread.h>
#include <stdatomic.h>
#include <stdbool.h>
#include <stdio.h>
#include <stdlib.h>
#include <string.h>

static int rounds = 250;

void before(void);                      /* fills the shared memory */
void work(int thread, unsigned *seed);  /* what each thread does */
bool after(void);                       /* whether the shared memory is right */

static pthread_barrier_t start;
static atomic_bool wrong;

/* The program itself has seen that something is wrong. */
static inline void complain(const char *what) {
    if (!atomic_exchange(&wrong, true)) puts(what);
}

/* A number below `limit`. */
static inline unsigned pick(unsigned *seed, unsigned limit) {
    *seed = *seed * 1103515245 + 12345;
    return (*seed >> 16) % limit;
}

static void *run(void *number) {
    unsigned seed = 77 + 1000 * (unsigned)(long)number;
    pthread_barrier_wait(&start);
    work((int)(long)number, &seed);
    return 0;
}

int main(int count, char **words) {
    int threads = count > 1 ? atoi(words[1]) : 4;
    pthread_t thread[64];
    if (threads < 1 || threads > 64) {
        fputs("THREADS is a number from 1 to 64\n", stderr);
        return 2;
    }
    if (count > 2) rounds = atoi(words[2]);
    before();
    pthread_barrier_init(&start, 0, threads);
    for (long i = 0; i < threads; i++) pthread_create(&thread[i], 0, run, (void *)i);
    for (int i = 0; i < threads; i++) pthread_join(thread[i], 0);
    if (!after()) complain("the shared memory is wrong");
    return wrong;
}
