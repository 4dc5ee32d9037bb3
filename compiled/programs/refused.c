/* Memory that is refused: malloc and calloc answer 0 in a transaction, which goes on, commits or cancels; and when there
 * was none left, and some was freed, there is some again. */
#include "program.h"
#include <sys/resource.h>

enum { BLOCK = 16 << 20, BLOCKS = 4096 };
static struct {
    long done, without;
    void *block[BLOCKS];
    long count;
} shared;
static volatile size_t huge = SIZE_MAX / 2, many = SIZE_MAX / 8;
static long due[MOST_THREADS];

static void ask_for_too_much(int thread, bool back) {
    size_t size = huge, count = many;
    bool none = false, went = false;
    __transaction_atomic {
        shared.done++;
        void *big = malloc(size), *product = calloc(count, 16);
        none = !big && !product;
        if (none) shared.without++;
        free(big);
        free(product);
        if (back) __transaction_cancel;
        went = true;
    }
    check(none || back, "memory that nobody has");
    due[thread] += went;
}

void work(int thread, unsigned long *seed) {
    for (int i = 0; i < rounds; i++) ask_for_too_much(thread, pick(seed, 3) == 0);
}

void before(void) {
}

static bool take(void) {
    bool got = false;
    __transaction_atomic {
        void *block = malloc(BLOCK);
        if (block) {
            shared.block[shared.count++] = block;
            got = true;
        }
    }
    return got;
}

static void give_back_all(void) {
    __transaction_atomic {
        while (shared.count) free(shared.block[--shared.count]);
    }
}

/* So that it is refused before the machine's memory is used up. */
static void limit_memory(void) {
    long pages;
    FILE *file = fopen("/proc/self/statm", "r");
    if (!file || fscanf(file, "%ld", &pages) != 1) abort();
    fclose(file);
    rlim_t limit = (rlim_t)pages * 4096 + (1ul << 30);
    setrlimit(RLIMIT_AS, &(struct rlimit){limit, limit});
}

bool after(void) {
    long sum = 0;
    for (int i = 0; i < threads; i++) sum += due[i];
    check(shared.done == sum && shared.without == sum, "the counts");
    limit_memory();
    while (shared.count < BLOCKS && take());
    check(shared.count > 8 && shared.count < BLOCKS, "as much memory as there is, and then none");
    long first = shared.count;
    give_back_all();
    while (shared.count < first && take());
    return shared.count >= first / 2;
}
