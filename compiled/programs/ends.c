/* Threads that come and go: each ends right behind a transaction, by a return, by pthread_exit, or in a destructor that
 * has a transaction of its own. */
#include "program.h"

static long shared;
static long due[MOST_THREADS];
static pthread_key_t key;

static void add(long n) {
    __transaction_atomic { shared += n; }
}

static void destroyed(void *n) {
    add((long)n);
}

static void *life(void *words) {
    long n = (long)words;
    pthread_setspecific(key, (void *)n);
    if (n % 4 == 3) return 0; /* its only transaction is the destructor's */
    add(n);
    if (n % 4 == 2) pthread_exit(0);
    return 0;
}

void work(int thread, unsigned long *seed) {
    for (int i = 0; i < (rounds < 1000 ? rounds : 1000); i++) {
        pthread_t one, other;
        long n = 1 + pick(seed, 100), m = 1 + pick(seed, 100);
        if (pthread_create(&one, 0, life, (void *)n) || pthread_create(&other, 0, life, (void *)m)) abort();
        add(1);
        pthread_join(one, 0);
        pthread_join(other, 0);
        due[thread] += 1 + n + m + (n % 4 != 3 ? n : 0) + (m % 4 != 3 ? m : 0);
    }
}

void before(void) {
    pthread_key_create(&key, destroyed);
}

bool after(void) {
    long sum = 0, is;
    for (int i = 0; i < threads; i++) sum += due[i];
    __transaction_atomic { is = shared; }
    return is == sum;
}
