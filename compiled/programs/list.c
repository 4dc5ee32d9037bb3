/* A sorted list over a row of nodes, with links that are numbers: insert, take out, sums along the list, and runs of
 * nodes turned round. */
#include "replay.h"

enum { NODES = 128, KEYS = 60 };
struct node {
    int32_t key, next;
    int64_t weight;
};
struct state {
    struct node node[NODES]; /* the first is the head of the list */
    int32_t spare, count;
};

SAFE static int32_t *link_to(struct state *s, int32_t key) {
    int32_t *link = &s->node[0].next;
    while (*link && s->node[*link].key < key) link = &s->node[*link].next;
    return link;
}

SAFE static long insert(struct state *s, int32_t key, int64_t weight) {
    int32_t *link = link_to(s, key), made;
    if (*link && s->node[*link].key == key) {
        s->node[*link].weight += weight;
        return s->node[*link].weight;
    }
    made = s->spare;
    s->spare = s->node[made].next;
    s->node[made] = (struct node){key, *link, weight};
    *link = made;
    return ++s->count;
}

SAFE static long take_out(struct state *s, int32_t key) {
    int32_t *link = link_to(s, key), old = *link;
    if (!old || s->node[old].key != key) return -1;
    *link = s->node[old].next;
    s->node[old].next = s->spare;
    s->spare = old;
    s->count--;
    return s->node[old].weight;
}

SAFE static long sum(struct state *s) {
    long sum = 0, last = -1;
    for (int32_t at = s->node[0].next; at; at = s->node[at].next) {
        sum = 3 * sum + s->node[at].weight + (s->node[at].key > last ? 0 : 1000000);
        last = s->node[at].key;
    }
    return sum;
}

/* The weights of all from `key` on, in the other order. */
SAFE static long turn_weights(struct state *s, int32_t key) {
    int64_t weight[NODES];
    int count = 0;
    int32_t first = *link_to(s, key);
    for (int32_t at = first; at; at = s->node[at].next) weight[count++] = s->node[at].weight;
    let_others_run();
    for (int32_t at = first; at; at = s->node[at].next) s->node[at].weight = weight[--count];
    return sum(s);
}

SAFE static long apply(struct state *s, unsigned what, unsigned key, unsigned weight) {
    switch (what) {
    case 0: return insert(s, key, weight);
    case 1: return take_out(s, key);
    case 2: return turn_weights(s, key);
    default: return sum(s) + s->count;
    }
}

REPLAYED

void fill(struct state *s) {
    for (int i = 1; i < NODES - 1; i++) s->node[i].next = i + 1;
    s->spare = 1;
}

void work(int thread, unsigned long *seed) {
    for (int i = 0; i < rounds; i++) {
        unsigned key = pick(seed, KEYS), weight = pick(seed, 1000);
        switch (pick(seed, 10)) {
        case 0: case 1: case 2: case 3: take_step(thread, 0, key, weight); break;
        case 4: case 5: case 6: take_step(thread, 1, key, 0); break;
        case 7: look(thread, 3, 0, 0); break;
        case 8: take_step(thread, 2, key, 0); break;
        default: take_back(pick(seed, 3), key, weight);
        }
    }
}
