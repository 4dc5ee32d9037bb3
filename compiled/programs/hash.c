/* A table with open addressing that doubles inside a transaction: a fill of the new rows, moves of the old ones, and
 * cleared again when it is full. */
#include "replay.h"

enum { MOST = 256, KEYS = 90 };
struct cell {
    uint32_t key;
    uint8_t used, age;
    uint16_t value;
};
struct state {
    struct cell cells[2][MOST];
    uint32_t size, used, which, clears;
};

SAFE static struct cell *find(struct cell *cells, uint32_t size, uint32_t key) {
    uint32_t i = key * 2654435761u % size;
    while (cells[i].used && cells[i].key != key) i = (i + 1) % size;
    return &cells[i];
}

SAFE static void grow(struct state *s) {
    struct cell *old = s->cells[s->which], *fresh = s->cells[!s->which];
    memset(fresh, 0, 2 * s->size * sizeof *fresh);
    for (uint32_t i = 0; i < s->size; i++)
        if (old[i].used) *find(fresh, 2 * s->size, old[i].key) = old[i];
    s->size *= 2;
    s->which = !s->which;
}

SAFE static long add(struct state *s, uint32_t key, uint16_t value) {
    if (4 * s->used >= 3 * s->size) grow(s);
    struct cell *cell = find(s->cells[s->which], s->size, key);
    bool fresh = !cell->used;
    if (fresh) {
        cell->key = key;
        cell->used = 1;
        s->used++;
    }
    cell->value += value;
    cell->age++;
    return 2 * cell->value + fresh;
}

SAFE static void clear(struct state *s) {
    memset(s->cells[0], 0, 8 * sizeof s->cells[0][0]);
    s->size = 8;
    s->used = s->which = 0;
    s->clears++;
}

SAFE static long apply(struct state *s, unsigned what, unsigned key, unsigned value) {
    switch (what) {
    case 0: return add(s, key, value);
    case 1: clear(s); return s->clears;
    default: {
        struct cell *cell = find(s->cells[s->which], s->size, key);
        return cell->used ? cell->value : -1;
    }
    }
}

REPLAYED

void fill(struct state *s) {
    s->size = 8;
}

void work(int thread, unsigned long *seed) {
    for (int i = 0; i < rounds; i++) {
        unsigned key = 7 * pick(seed, KEYS) + 1, value = pick(seed, 5000);
        switch (pick(seed, 8)) {
        case 0: take_back(0, key, value); break;
        case 1: case 2: look(thread, 2, key, 0); break;
        case 3: if (i % 16 == 0) take_step(thread, 1, 0, 0); break;
        default: take_step(thread, 0, key, value);
        }
    }
}
