/* A binary tree without balance: put, take out with the successor in place, and a walk by a function that calls
 * itself. */
#include "replay.h"

enum { NODES = 128, KEYS = 80 };
struct node {
    int16_t key;
    uint16_t left, right, pad;
    int64_t value;
};
struct state {
    struct node node[NODES];
    uint16_t root, spare, count, pad[5];
};

SAFE static uint16_t *place_of(struct state *s, int16_t key) {
    uint16_t *link = &s->root;
    while (*link && s->node[*link].key != key)
        link = key < s->node[*link].key ? &s->node[*link].left : &s->node[*link].right;
    return link;
}

SAFE static long put(struct state *s, int16_t key, int64_t value) {
    uint16_t *link = place_of(s, key);
    if (!*link) {
        uint16_t made = s->spare;
        s->spare = s->node[made].right;
        s->node[made] = (struct node){.key = key};
        *link = made;
        s->count++;
    }
    s->node[*link].value += value;
    return s->node[*link].value;
}

SAFE static uint16_t *successor_of(struct state *s, uint16_t node) {
    uint16_t *link = &s->node[node].right;
    while (s->node[*link].left) link = &s->node[*link].left;
    return link;
}

SAFE static long cut(struct state *s, int16_t key) {
    uint16_t *link = place_of(s, key), node = *link;
    if (!node) return -1;
    long value = s->node[node].value;
    if (s->node[node].left && s->node[node].right) {
        uint16_t *other = successor_of(s, node), next = *other;
        *other = s->node[next].right;
        s->node[node].key = s->node[next].key;
        s->node[node].value = s->node[next].value;
        node = next;
    } else {
        *link = s->node[node].left ? s->node[node].left : s->node[node].right;
    }
    s->node[node].right = s->spare;
    s->spare = node;
    s->count--;
    return value;
}

SAFE static long total(struct state *s, uint16_t node) {
    if (!node) return 0;
    return total(s, s->node[node].left) + 3 * s->node[node].key + s->node[node].value + 5 * total(s, s->node[node].right);
}

SAFE static long apply(struct state *s, unsigned what, unsigned key, unsigned value) {
    switch (what) {
    case 0: return put(s, key, (int64_t)value - 500);
    case 1: return cut(s, key);
    case 2: { uint16_t node = *place_of(s, key); return node ? s->node[node].value : -1; }
    default: return total(s, s->root) + s->count;
    }
}

REPLAYED

void fill(struct state *s) {
    for (int i = 1; i < NODES - 1; i++) s->node[i].right = i + 1;
    s->spare = 1;
}

void work(int thread, unsigned long *seed) {
    for (int i = 0; i < rounds; i++) {
        unsigned key = pick(seed, KEYS), value = pick(seed, 1000);
        switch (pick(seed, 10)) {
        case 0: case 1: case 2: case 3: take_step(thread, 0, key, value); break;
        case 4: case 5: case 6: take_step(thread, 1, key, 0); break;
        case 7: look(thread, 2, key, 0); break;
        case 8: look(thread, 3, 0, 0); break;
        default: take_back(pick(seed, 2), key, value);
        }
    }
}
