/* A process that forks: before its first transaction, behind some, and in a thread while there are others, though none of
 * them is in a transaction just then. The child, which has that thread alone, has transactions of its own, of which the
 * parent sees nothing. */
#define OWN_MAIN
#include "program.h"
#include <sys/wait.h>
#include <unistd.h>

static struct {
    long n;
    long *heap;
} shared;
static long made[MOST_THREADS];
static pthread_rwlock_t forking = PTHREAD_RWLOCK_INITIALIZER;

static void add(long n) {
    __transaction_atomic {
        shared.n += n;
        if (!shared.heap) shared.heap = calloc(4, sizeof(long));
        shared.heap[n & 3] += n;
    }
}

static void add_and_take_back(long n) {
    __transaction_atomic {
        shared.n = n;
        __transaction_cancel;
    }
}

static int child_of(long n) {
    long before_it, behind;
    __transaction_atomic { before_it = shared.n; }
    for (int i = 0; i < 100; i++) add(n), add_and_take_back(n);
    __transaction_atomic { behind = shared.n; }
    return behind == before_it + 100 * n ? 0 : 1;
}

static void fork_one(long n) {
    int status = -1;
    pid_t child = fork();
    if (child < 0) abort();
    if (!child) {
        alarm(20);
        _exit(child_of(n));
    }
    waitpid(child, &status, 0);
    check(status == 0, "a child");
}

void work(int thread, unsigned long *seed) {
    int forks = rounds < 400 ? rounds / 40 + 1 : 10;
    for (int i = 0; i < rounds; i++) {
        long n = pick(seed, 50);
        pthread_rwlock_rdlock(&forking);
        add(n);
        add_and_take_back(n);
        pthread_rwlock_unlock(&forking);
        made[thread] += n;
        if (i % (rounds / forks + 1) != 5) continue;
        pthread_rwlock_wrlock(&forking);
        fork_one(n);
        pthread_rwlock_unlock(&forking);
    }
}

void before(void) {
}

bool after(void) {
    long sum = 0, heap = 0;
    for (int i = 0; i < threads; i++) sum += made[i];
    for (int i = 0; i < 4; i++) heap += shared.heap ? shared.heap[i] : 0;
    return shared.n == sum && heap == sum;
}

int main(int count, char **words) {
    fork_one(3); /* before the first transaction */
    return run_program(count, words);
}
