/* No limit for the stack (`ulimit -s unlimited`): the main thread's reaches down to the heap as it was by its first
 * transaction, as far as the C library can tell. Heap that comes later lies there, and is shared all the same. */
#include "fault.h"
#include <sys/resource.h>

enum { CELLS = 1 << 23, ROUNDS = 20000 };
struct node {
    struct node *next;
    long value;
};
static long *cells, first, sum;
static struct node *top;
static pthread_barrier_t line;

SAFE static void add(long *to, long n) {
    *to += n;
}

static void turn(long i) {
    __transaction_atomic {
        struct node *n = malloc(sizeof *n);
        n->value = i, n->next = top, top = n;
        add(&cells[i % 7], 1);
        if (i % 2) {
            n = top;
            top = n->next;
            sum += n->value;
            free(n);
        }
    }
}

static void *work(void *number) {
    (void)number;
    pthread_barrier_wait(&line);
    for (long i = 0; i < ROUNDS; i++) turn(i);
    return 0;
}

static void cancelled(void) {
    long had = cells[3];
    __transaction_atomic {
        struct node *n = malloc(sizeof *n);
        n->value = 1, n->next = top, top = n;
        add(&cells[3], n->value);
        __transaction_cancel;
    }
    CHECK(cells[3] == had, "a cancelled block left %ld", cells[3] - had);
}

int main(int count, char **words) {
    pthread_t thread[MOST_THREADS];
    struct rlimit limit;
    long all = 0;
    take_words(count, words);
    getrlimit(RLIMIT_STACK, &limit);
    if (limit.rlim_cur != RLIM_INFINITY) {
        limit.rlim_cur = RLIM_INFINITY;
        if (setrlimit(RLIMIT_STACK, &limit)) return skipped();
        execv("/proc/self/exe", words);
        return skipped();
    }
    __transaction_atomic { first++; }
    cells = (long *)calloc(CELLS, sizeof(long)) + CELLS - 8; /* its end */
    pthread_barrier_init(&line, 0, threads);
    for (int i = 1; i < threads; i++) thread[i] = started(work, 0);
    work(0);
    for (int i = 1; i < threads; i++) pthread_join(thread[i], 0);
    for (int i = 0; i < 7; i++) all += cells[i];
    CHECK(all == (long)threads * ROUNDS, "%ld of %ld", all, (long)threads * ROUNDS);
    cancelled();
    return done();
}
