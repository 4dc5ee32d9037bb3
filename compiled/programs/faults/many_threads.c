/* 300 threads at once, each in the midst of its transactions while all others are there, and then 600 in turn. */
#include <pthread.h>
#include <stdio.h>
#include <stdlib.h>

enum { AT_ONCE = 300, IN_TURN = 600, ROUNDS = 50 };
static long sum;
static pthread_barrier_t line;

static void *work(void *p) {
    if (p) pthread_barrier_wait(&line);
    for (int i = 0; i < ROUNDS; i++) {
        __transaction_atomic { sum++; }
        if (p && i == ROUNDS / 2) pthread_barrier_wait(&line);
    }
    return 0;
}

int main(void) {
    static pthread_t t[AT_ONCE];
    pthread_attr_t small;
    pthread_attr_init(&small);
    pthread_attr_setstacksize(&small, 1 << 18);
    pthread_barrier_init(&line, 0, AT_ONCE);
    for (int i = 0; i < AT_ONCE; i++)
        if (pthread_create(&t[i], &small, work, &line)) return 2;
    for (int i = 0; i < AT_ONCE; i++) pthread_join(t[i], 0);
    for (int i = 0; i < IN_TURN; i++) {
        if (pthread_create(&t[0], &small, work, 0)) return 2;
        pthread_join(t[0], 0);
    }
    int wrong = sum != (long)(AT_ONCE + IN_TURN) * ROUNDS;
    printf("%s\n", wrong ? "counts are lost" : "right");
    return wrong;
}
