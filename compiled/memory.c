/* Whose memory it is, the undo log, and what the open transaction has allocated. */
#include "library.h"

/* A frame of a call that the block which began at `sp` has made, and that has not returned. It is gone where the block
 * begins again, and nobody else has it. Such frames lie between the two on whichever stack is used; other parts of a stack,
 * as those of coroutines, may lie below or above. */
static bool is_frame(uintptr_t at, const void *sp) {
    return at < (uintptr_t)sp && at >= (uintptr_t)__builtin_frame_address(0);
}

/* -- what the transaction has allocated: the list is in the order of age, and a search tree by address. Of two nodes the
 * upper one is drawn by their addresses, so the tree is about as deep as one of random order. -- */

struct fresh {
    struct memory memory;
    void (*release)(void *);
    uint32_t below, above; /* the two sides of the tree: numbers of the list from 1 on, or 0 */
};

static inline struct fresh *numbered(uint32_t number) {
    return (struct fresh *)tx.fresh.at + number - 1;
}

static inline uint32_t *side(struct fresh *f, uintptr_t at) {
    return at < f->memory.at ? &f->below : &f->above;
}

static uint64_t drawn(const struct fresh *f) {
    uint64_t n = f->memory.at >> 4;
    n = (n ^ n >> 31) * 0x9e3779b97f4a7c15;
    return n ^ n >> 32;
}

/* The number of the block in which an address lies, if that is fresh. */
static uint32_t fresh_at(uintptr_t at) {
    uint32_t number = tx.fresh_top;
    while (number && !is_within(at, &numbered(number)->memory)) number = *side(numbered(number), at);
    return number;
}

/* It is released where the innermost block goes back, so nobody sees what stood in it. */
static bool is_new(uintptr_t at) {
    return fresh_at(at) > block_at(tx.depth - 1)->fresh / sizeof(struct fresh);
}

/* What was in its place goes to its two sides. */
static void split(uint32_t number, struct fresh *new) {
    uint32_t *below = &new->below, *above = &new->above;
    while (number) {
        struct fresh *f = numbered(number);
        if (f->memory.at <= new->memory.at) *below = number, below = &f->above, number = *below;
        else *above = number, above = &f->below, number = *above;
    }
    *below = *above = 0;
}

/* Where all of it lies in the region, from word to word. It stays so where a block goes back: too wide is not wrong. */
static void widen(const struct memory *m) {
    if (!in_region((void *)m->at, m->size)) return;
    uintptr_t first = (m->at - region.at) & -8, end = (m->at + m->size - region.at + 7) & -8;
    if (!tx.fresh_end || first < tx.fresh_first) tx.fresh_first = first;
    if (end > tx.fresh_end) tx.fresh_end = end;
}

void add_fresh(void *p, size_t size, void (*release)(void *)) {
    struct fresh *new = list_add(&tx.fresh, sizeof *new);
    *new = (struct fresh){{(uintptr_t)p, size ? size : 1}, release, 0, 0};
    uint32_t *link = &tx.fresh_top;
    while (*link && drawn(numbered(*link)) >= drawn(new)) link = side(numbered(*link), new->memory.at);
    split(*link, new);
    *link = tx.fresh.used / sizeof *new;
    widen(&new->memory);
    tx.has_unseen = !tx.serial;
    set_fast();
}

/* Its two sides go to its place. */
static void take_out(uint32_t number) {
    struct fresh *old = numbered(number);
    uint32_t *link = &tx.fresh_top, below = old->below, above = old->above;
    while (*link != number) link = side(numbered(*link), old->memory.at);
    while (below && above) {
        bool is_upper = drawn(numbered(below)) >= drawn(numbered(above));
        if (is_upper) *link = below, link = &numbered(below)->above, below = *link;
        else *link = above, link = &numbered(above)->below, above = *link;
    }
    *link = below ? below : above;
}

/* The block is taken back: what it has allocated is released, by actions that run behind its own ones. */
void drop_fresh(const struct block *b) {
    size_t count = (tx.fresh.used - b->fresh) / sizeof(struct fresh);
    if (!count) return;
    list_add(&tx.undos, count * sizeof(struct action));
    struct action *to = (void *)(tx.undos.at + b->undos);
    memmove(to + count, to, tx.undos.at + tx.undos.used - (char *)(to + count));
    for (uint32_t number = tx.fresh.used / sizeof(struct fresh); count; count--, number--, to++) {
        struct fresh *f = numbered(number);
        *to = (struct action){.run = f->release, .argument = (void *)f->memory.at};
        if (b->fresh) take_out(number);
    }
    tx.fresh.used = b->fresh;
    if (!b->fresh) tx.fresh_top = tx.fresh_first = tx.fresh_end = 0;
}

/* -- what the transaction is given was freed by a commit that it may not have seen, and may be a node that it still finds in
 * shared memory. Before it uses anything further it has to see that commit: then all that it has read holds after it, or it
 * runs again. It sees all commits by the read of a word that it has not read, if the clock has moved. -- */

enum { MOST_WITNESSES = 1024 };
static uint64_t *witness;

void find_witnesses(void) {
    witness = __libc_malloc(MOST_WITNESSES * sizeof *witness);
    if (!witness) fail("no memory for transactions");
}

static void see_commits(void) {
    uint64_t clock = __atomic_load_n(the_clock(), __ATOMIC_ACQUIRE);
    bool has_witnesses = in_region(witness, MOST_WITNESSES * sizeof *witness);
    if (has_witnesses && clock != tx.seen) {
        if (tx.witnesses == MOST_WITNESSES) become_serial();
        served(itm_c_read8(tx.engine, (uintptr_t)&witness[tx.witnesses++] - region.at).code);
        tx.seen = clock + (clock & 1);
    }
    tx.has_unseen = false;
    set_fast();
}

/* -- kinds -- */

/* Of an open transaction. A stack may lie in the region: then it is shared but for the transaction's own frames. */
enum kind kind_of(const void *p, size_t size) {
    uintptr_t at = (uintptr_t)p;
    if (UNLIKELY(tx.has_unseen)) see_commits();
    if (is_frame(at, tx.outermost.registers.sp)) return OWN;
    if (fresh_at(at)) return OWN;
    if (in_region(p, size)) return SHARED;
    if (is_within(at, &tx.stack) || is_within(at, &tx.tls))
        return __atomic_load_n(&tx.is_shared, __ATOMIC_RELAXED) ? FOREIGN : OWN;
    if (is_within(at, &constants)) return CONSTANT;
    return FOREIGN;
}

/* -- the undo log: bytes, and behind them what they are of -- */

struct undo {
    struct memory memory;
    int frames; /* so many blocks, from the outermost on, have made the call whose frame it lies in */
};

static size_t padded(size_t size) {
    return (size + 15) & -16;
}

static int blocks_above(uintptr_t at) {
    int count = 0;
    while (count < tx.depth && is_frame(at, block_at(count)->registers.sp)) count++;
    return count;
}

void log_bytes(const void *p, size_t size) {
    if (!size || tx.depth <= tx.fixed) return;
    int frames = blocks_above((uintptr_t)p);
    if (frames == tx.depth || is_new((uintptr_t)p)) return;
    char *to = list_add(&tx.undo, padded(size) + sizeof(struct undo));
    memcpy(to, p, size);
    *(struct undo *)(to + padded(size)) = (struct undo){{(uintptr_t)p, size}, frames};
}

static void put_back(const struct memory *m, const char *bytes) {
    if (tx.serial && in_region((void *)m->at, m->size)) write_shared(m->at - region.at, bytes, m->size);
    else memcpy((void *)m->at, bytes, m->size);
}

/* What lies in a frame of a call that this block has made is left: others may have that place by now. */
void undo_to(int target) {
    while (tx.undo.used > block_at(target)->undo) {
        struct undo *u = (void *)(tx.undo.at + tx.undo.used - sizeof *u);
        char *bytes = (char *)u - padded(u->memory.size);
        if (target >= u->frames) put_back(&u->memory, bytes);
        tx.undo.used = bytes - tx.undo.at;
    }
}
