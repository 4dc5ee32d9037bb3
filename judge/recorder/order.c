/* The order of the commits, which no runtime tells.
 *
 * outside  Nothing is added to the transactions. A commit comes behind those that had returned when it was called, and
 *          before those that were called after it returned. That is a range of positions; settle/ searches an order.
 * inside   Each attempt ends with a read of a hidden counter by the runtime's own barrier, and where it wrote it writes
 *          one more there: what it read is its position. That is exact, but each writer now conflicts with all others, so
 *          that faults in the validation of a commit are hidden.
 *
 * An attempt that did not commit, or has not ended, comes behind the commits that had returned before it began, and
 * before those that were called after it ended. The runtime restarts an attempt without telling when: such a one comes
 * behind those that had returned before the attempt before it began. */
#include "recorder.h"
#include <stdlib.h>

bool inside;

/* commits of writers: those under way, and from bit 16 on those that have returned */
static _Atomic uint64_t commits;
enum { UNDER_WAY = 1, RETURNED = 1 << 16 };

static uint64_t returned(uint64_t now) {
    return now >> 16;
}

/* Those that have returned, and those under way. */
static uint64_t called(uint64_t now) {
    return (now >> 16) + (now & 0xffff);
}

static struct {
    _Alignas(128) uint64_t value, rest[15];
} counter;

uint64_t _ITM_RU8(const uint64_t *), _ITM_RfWU8(const uint64_t *);
void _ITM_WU8(uint64_t *, uint64_t);
static __typeof__(_ITM_RU8) *read_counter, *read_to_write;
static __typeof__(_ITM_WU8) *write_counter;

void open_order(void) {
    const char *order = getenv("RECORD_ORDER");
    inside = order && !strcmp(order, "inside");
    read_counter = next("_ITM_RU8");
    read_to_write = next("_ITM_RfWU8");
    write_counter = next("_ITM_WU8");
}

uint64_t commits_returned(void) {
    return returned(commits);
}

uint64_t commits_called(void) {
    return called(commits);
}

/* A number that changes with each call of a commit and each return. */
uint64_t commits_so_far(void) {
    return commits;
}

/* Before the commit of an outermost block is passed on. */
void commit_called(struct thread *t) {
    bool writes = t->wrote || t->irrevocable;
    if (inside) {
        t->position = writes ? read_to_write(&counter.value) : read_counter(&counter.value);
        if (writes) write_counter(&counter.value, t->position + 1);
    }
    t->committing = writes;
    uint64_t now = writes ? atomic_fetch_add(&commits, UNDER_WAY) : commits;
    if (!inside) t->position = writes ? returned(now) : t->low;
}

/* The outcome is none for a commit. */
void try_ended(struct thread *t, const char *outcome) {
    uint64_t step = !t->committing ? 0 : outcome ? -(uint64_t)UNDER_WAY : RETURNED - UNDER_WAY;
    uint64_t now = step ? atomic_fetch_add(&commits, step) : commits;
    uint64_t low = outcome ? t->low : t->position;
    uint64_t high = outcome ? called(now) : inside ? t->position : called(now) - t->committing;
    if (!outcome) outcome = t->committing ? "committed" : "readonly";
    note(t, END, outcome, low, high, returned(now), 0);
    t->depth = 0;
    t->irrevocable = t->committing = false;
}
