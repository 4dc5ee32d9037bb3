/* Which function is the transactional clone of which: tables that the start files register, one for each object. */
#include "library.h"
#include <stdlib.h>

struct clone {
    uintptr_t plain, transactional;
};

/* Sorted copies. A table that is taken back keeps its place, empty: a lookup takes no lock. */
struct table {
    const void *source;
    size_t count;
    struct table *next;
    struct clone clone[];
};

static struct table *tables;

static int compare(const void *a, const void *b) {
    uintptr_t x = ((const struct clone *)a)->plain, y = ((const struct clone *)b)->plain;
    return x < y ? -1 : x > y;
}

ENTRY void _ITM_registerTMCloneTable(void *at, size_t count) {
    struct table *t = __libc_malloc(sizeof *t + count * sizeof t->clone[0]);
    if (!t) fail("no memory for a clone table");
    memcpy(t->clone, at, count * sizeof t->clone[0]);
    qsort(t->clone, count, sizeof t->clone[0], compare);
    t->source = at;
    t->count = count;
    t->next = tables;
    __atomic_store_n(&tables, t, __ATOMIC_RELEASE);
}

/* The program's own stays: it ends by now, and its other threads may still be in transactions. */
ENTRY void _ITM_deregisterTMCloneTable(void *at) {
    if (in_region(at, 1) || is_within((uintptr_t)at, &constants)) return;
    for (struct table *t = tables; t; t = t->next)
        if (t->source == at) t->source = 0, t->count = 0;
}

static void *clone_of(void *plain) {
    struct clone wanted = {(uintptr_t)plain, 0}, *found = 0;
    struct table *t = __atomic_load_n(&tables, __ATOMIC_ACQUIRE);
    for (; t && !found; t = t->next) found = bsearch(&wanted, t->clone, t->count, sizeof wanted, compare);
    return found ? (void *)found->transactional : 0;
}

ENTRY void *_ITM_getTMCloneOrIrrevocable(void *plain) {
    void *clone = clone_of(plain);
    if (clone) return clone;
    if (tx.depth) become_irrevocable();
    return plain;
}

ENTRY void *_ITM_getTMCloneSafe(void *plain) {
    void *clone = clone_of(plain);
    if (!clone) fail("a function without a transactional clone is called");
    return clone;
}
