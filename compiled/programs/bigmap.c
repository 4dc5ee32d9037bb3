/* A map of several MB whose nodes transactions make and free. */
#include "program.h"

enum { BUCKETS = 8192, KEYS = 100000, FIRST = 60000 };
struct node {
    long key;
    struct node *next;
    long value[6];
};
static struct node *bucket[BUCKETS];
static long made[MOST_THREADS + 1];

SAFE static struct node **link_to(long key) {
    struct node **link = &bucket[key % BUCKETS];
    while (*link && (*link)->key < key) link = &(*link)->next;
    return link;
}

SAFE static bool insert(long key) {
    struct node **link = link_to(key);
    if (*link && (*link)->key == key) return false;
    struct node *node = malloc(sizeof *node);
    node->key = key;
    for (int i = 0; i < 6; i++) node->value[i] = (i + 3) * key;
    node->next = *link;
    *link = node;
    return true;
}

SAFE static bool take_out(long key) {
    struct node **link = link_to(key), *old = *link;
    if (!old || old->key != key) return false;
    *link = old->next;
    free(old);
    return true;
}

SAFE static long value_of(long key) {
    struct node *node = *link_to(key);
    return node && node->key == key ? node->value[key % 6] : -1;
}

void work(int thread, unsigned long *seed) {
    for (int i = 0; i < 4 * rounds; i++) {
        long key = pick(seed, KEYS), other = pick(seed, KEYS), value, change = 0;
        switch (pick(seed, 4)) {
        case 0: __transaction_atomic { change = insert(key); } break;
        case 1: __transaction_atomic { change = -take_out(key); } break;
        case 2: __transaction_atomic { change = insert(other) - take_out(key); } break;
        default:
            __transaction_atomic { value = value_of(key); }
            check(value == -1 || value == (key % 6 + 3) * key, "a value");
        }
        made[thread] += change;
    }
}

void before(void) {
    for (long key = 0; key < FIRST; key += 20) {
        long change = 0;
        __transaction_atomic {
            for (long k = key; k < key + 20; k++) change += insert(k);
        }
        made[MOST_THREADS] += change;
    }
}

bool after(void) {
    long there = 0, due = 0;
    for (int i = 0; i <= MOST_THREADS; i++) due += made[i];
    for (int b = 0; b < BUCKETS; b++)
        for (struct node *node = bucket[b]; node; node = node->next, there++) {
            check(node->key % BUCKETS == b && (!node->next || node->next->key > node->key), "an order");
            for (int i = 0; i < 6; i++) check(node->value[i] == (i + 3) * node->key, "a node");
        }
    return there == due;
}
