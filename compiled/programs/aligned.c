/* Memory that aligned_alloc, posix_memalign and realloc gave, filled by plain code, published by one transaction and freed by
 * another. */
#include "program.h"

enum { PLACES = 16 };
struct block {
    long weight;
    size_t size;
    unsigned char bytes[];
};
static struct {
    struct block *place[PLACES];
    long weight;
} shared;
static long due[MOST_THREADS];

static struct block *made(size_t alignment, size_t size, bool by_posix) {
    void *block = by_posix ? 0 : aligned_alloc(alignment, (size + alignment - 1) & -alignment);
    if (by_posix && posix_memalign(&block, alignment, size)) abort();
    check((uintptr_t)block % alignment == 0, "an alignment");
    return block;
}

static struct block *filled(unsigned long *seed) {
    size_t alignment = 16ul << pick(seed, 10), size = 32 + pick(seed, 300), before = size / 2 + 8;
    struct block *block = made(alignment, before, pick(seed, 2));
    memset(block, pick(seed, 256), before);
    unsigned char last = ((unsigned char *)block)[before - 1];
    block = realloc(block, size);
    check(((unsigned char *)block)[before - 1] == last, "bytes that realloc has to keep");
    block->weight = pick(seed, 100);
    block->size = size - sizeof *block;
    memset(block->bytes, block->weight, block->size);
    return block;
}

/* Frees what was there; a block that is cancelled frees nothing. */
static bool put(int place, struct block *block, bool back) {
    bool done = false;
    __transaction_atomic {
        struct block *old = shared.place[place];
        shared.weight += block->weight - (old ? old->weight : 0);
        free(old);
        shared.place[place] = block;
        if (back) __transaction_cancel;
        done = true;
    }
    return done;
}

SAFE static bool is_whole(const struct block *block) {
    for (size_t i = 0; i < block->size; i += 16)
        if (block->bytes[i] != block->weight) return false;
    return true;
}

static bool all_whole(void) {
    bool whole = true;
    long sum = 0;
    __transaction_atomic {
        for (int i = 0; i < PLACES; i++) {
            struct block *block = shared.place[i];
            if (!block) continue;
            whole = whole && is_whole(block);
            sum += block->weight;
        }
        sum -= shared.weight;
    }
    return whole && sum == 0;
}

void work(int thread, unsigned long *seed) {
    for (int i = 0; i < rounds; i++) {
        struct block *block = filled(seed);
        if (put(pick(seed, PLACES), block, pick(seed, 4) == 0)) due[thread]++;
        else free(block);
        if (i % 8 == 0) check(all_whole(), "a block");
    }
}

void before(void) {
}

bool after(void) {
    long count = 0;
    for (int i = 0; i < threads; i++) count += due[i];
    return all_whole() && count > 0;
}
