/* Has threads, and makes no transaction. */
#include <pthread.h>

static void *run(void *x) {
    return x;
}

int main(void) {
    pthread_t thread[4];
    for (int i = 0; i < 4; i++) pthread_create(&thread[i], 0, run, 0);
    for (int i = 0; i < 4; i++) pthread_join(thread[i], 0);
}
