/* A thread whose stack is a block of malloc: its frames lie among the shared words, and blocks write to locals whose
 * address others are handed, in frames that are gone by the commit. */
#include <pthread.h>
#include <stdio.h>
#include <stdlib.h>
#include <string.h>

enum { ROUNDS = 3000, STACK = 1 << 18 };
static long sum, asked;

__attribute__((transaction_safe, noinline)) static void add(long *to, long by) {
    *to += by;
}

__attribute__((transaction_safe, noinline)) static long deep(int depth, long *above) {
    long here[8] = {0};
    for (int i = 0; i < 8; i++) add(&here[i], depth + i);
    add(above, 1);
    if (depth) add(&here[0], deep(depth - 1, &here[1]));
    long all = 0;
    for (int i = 0; i < 8; i++) all += here[i];
    return all;
}

static void *work(void *p) {
    long *mine = p, local = 0;
    for (int i = 0; i < ROUNDS; i++) {
        __transaction_atomic {
            long got = deep(10, &local);
            add(&sum, got);
            asked++;
        }
        __transaction_atomic {
            add(&local, 5);
            add(&sum, 5);
            __transaction_cancel;
        }
    }
    *mine = local;
    return 0;
}

int main(int count, char **words) {
    pthread_t t[64];
    pthread_attr_t attributes;
    int threads = count > 1 ? atoi(words[1]) : 1;
    long mine[64], locals = 0;
    pthread_attr_init(&attributes);
    for (int i = 0; i < threads; i++) {
        void *stack = aligned_alloc(4096, STACK);
        memset(stack, 0x5a, STACK);
        pthread_attr_setstack(&attributes, stack, STACK);
        pthread_create(&t[i], &attributes, work, &mine[i]);
    }
    for (int i = 0; i < threads; i++) {
        pthread_join(t[i], 0);
        locals += mine[i];
    }
    long once = 0;
    for (int d = 0; d <= 10; d++) once += 8 * d + 28 + (d < 10);
    int wrong = asked != (long)threads * ROUNDS || locals != asked || sum != asked * once;
    printf("%s\n", wrong ? "frames in the heap went wrong" : "right");
    return wrong;
}
