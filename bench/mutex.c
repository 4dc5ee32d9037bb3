/* In libitm's place: each outermost block holds one mutex, and runs without barriers. Blocks that are cancelled are not
 * served. For bench/kernels.sh. */
#include <pthread.h>
#include <stddef.h>
#include <stdint.h>
#include <stdlib.h>

enum { HAS_UNINSTRUMENTED = 2, RUN_UNINSTRUMENTED = 2 };
static pthread_mutex_t mutex = PTHREAD_MUTEX_INITIALIZER;
static __thread int depth;

uint32_t _ITM_beginTransaction(uint32_t props, ...) {
    if (!(props & HAS_UNINSTRUMENTED)) abort();
    if (!depth++) pthread_mutex_lock(&mutex);
    return RUN_UNINSTRUMENTED;
}

void _ITM_commitTransaction(void) {
    if (!--depth) pthread_mutex_unlock(&mutex);
}

void _ITM_registerTMCloneTable(void *table, size_t count) {
    (void)table, (void)count;
}

void _ITM_deregisterTMCloneTable(void *table) {
    (void)table;
}
