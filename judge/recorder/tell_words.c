/* The words that calls name, with their bytes before and after, and the blocks of the heap that they lie in. */
#include "tell.h"
#include <stdlib.h>

static int by_place(const void *x, const void *y) {
    size_t a = *(const size_t *)x, b = *(const size_t *)y;
    return a < b ? -1 : a > b;
}

static void tell_block(const struct block *block) {
    fprintf(out, "block %lx %zu %lx\n", (long)block->memory, block->size, (long)block->caller);
}

/* The block of the heap that an address lies in, or none; addresses come in order. */
static const struct block *block_with(const byte *at) {
    static const struct block *block, *last;
    if ((size_t)(at - heap_memory()) >= heap_size) return 0;
    if (!block) block = first_block();
    for (const struct block *after; (after = block_after(block)) && (const byte *)after <= at;) block = after;
    if (block != last) tell_block(block);
    return last = block;
}

static void tell_word(size_t place) {
    const struct word *word = &words[place / 8];
    const byte *at = address_of(place);
    uint64_t now = word_now(place / 8) & mask_of(word->touched);
    const struct block *block = block_with(at);
    fprintf(out, "word %lx ", (long)at);
    tell_hex(&word->opening, 8);
    putc_unlocked(' ', out);
    tell_hex(&now, 8);
    fputs(block && block->freed ? " 0\n" : " 1\n", out);
}

static size_t *told_words, told_count;

static void find_words(size_t place, size_t size) {
    for (size_t word = place / 8; word <= (place + size - 1) / 8; word++) {
        if (words[word].told) continue;
        words[word].told = true;
        told_words[told_count++] = 8 * word;
    }
}

/* The words that the calls of these attempts name, by address, get their numbers. */
void tell_words(const struct try *tries, size_t count) {
    told_words = reserve(space / 8 * sizeof *told_words);
    for (const struct try *try = tries; try < tries + count; try++)
        for (const struct event *e = try->from; e != try->end; e = event_after(e)) {
            bool names_words = e->kind == READ || e->kind == WRITE || e->kind == COPY || e->kind == SET;
            if (names_words) find_words(e->a, e->size);
            if (e->kind == COPY) find_words(e->b, e->size);
        }
    qsort(told_words, told_count, sizeof *told_words, by_place);
    for (size_t i = 0; i < told_count; i++) {
        words[told_words[i] / 8].number = i;
        tell_word(told_words[i]);
    }
}
