/* A block writes memory that is neither the program's data nor its heap (pages of its own, another thread's stack), and is
 * cancelled: nothing of it may stay. Then the same in an inner block, whose outer one goes on. */
#define _GNU_SOURCE
#include <pthread.h>
#include <stdio.h>
#include <stdlib.h>
#include <sys/mman.h>

enum { ROUNDS = 2000 };
static long *page, *on_stack, shared, kept;

static void cancelled(void) {
    __transaction_atomic {
        page[0]++;
        *on_stack += 1;
        shared++;
        __transaction_cancel;
    }
}

static void inner(void) {
    __transaction_atomic {
        page[1]++;
        __transaction_atomic {
            page[1] += 100;
            shared += 100;
            *on_stack += 100;
            __transaction_cancel;
        }
        kept++;
    }
}

static void *work(void *none) {
    for (int i = 0; i < ROUNDS; i++) {
        cancelled();
        inner();
    }
    return none;
}

int main(int count, char **words) {
    pthread_t t[64];
    long here = 0;
    int threads = count > 1 ? atoi(words[1]) : 1;
    on_stack = &here;
    page = mmap(0, 4096, PROT_READ | PROT_WRITE, MAP_PRIVATE | MAP_ANONYMOUS, -1, 0);
    for (int i = 0; i < threads; i++) pthread_create(&t[i], 0, work, 0);
    for (int i = 0; i < threads; i++) pthread_join(t[i], 0);
    long want = (long)threads * ROUNDS;
    int wrong = page[0] || here || shared || page[1] != want || kept != want;
    printf("%s\n", wrong ? "a cancelled block has left something" : "right");
    return wrong;
}
