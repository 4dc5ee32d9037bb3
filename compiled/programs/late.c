/* A program without transactions, built without -fgnu-tm, that loads a library with some, PROGRAM.so: so the runtime comes
 * with it, while threads run already. */
#define OWN_MAIN
#define NO_TRANSACTIONS
#include "program.h"
#include <dlfcn.h>

static bool (*turn)(long *, int, long, bool);
static long (*sum)(void);
static long in_data, *on_heap, of_data[MOST_THREADS], of_heap[MOST_THREADS];
static const char *library;
static pthread_once_t once = PTHREAD_ONCE_INIT;

static void load(void) {
    void *handle = dlopen(library, RTLD_NOW);
    if (!handle) {
        puts(dlerror());
        exit(2);
    }
    turn = (bool (*)(long *, int, long, bool))dlsym(handle, "plug_turn");
    sum = (long (*)(void))dlsym(handle, "plug_sum");
    if (!turn || !sum) exit(2);
}

void work(int thread, unsigned long *seed) {
    pthread_once(&once, load);
    for (int i = 0; i < rounds; i++) {
        long n = pick(seed, 100);
        if (turn(&in_data, i, n, pick(seed, 4) == 0)) of_data[thread] += n;
        if (turn(on_heap, i, n, pick(seed, 4) == 0)) of_heap[thread] += n;
    }
}

void before(void) {
    on_heap = calloc(1, sizeof *on_heap);
}

bool after(void) {
    long data = 0, heap = 0;
    for (int i = 0; i < threads; i++) data += of_data[i], heap += of_heap[i];
    return in_data == data && *on_heap == heap && sum() == 2 * (data + heap);
}

int main(int count, char **words) {
    static char name[4096];
    snprintf(name, sizeof name, "%s.so", words[0]);
    library = name;
    return run_program(count, words);
}
