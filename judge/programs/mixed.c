/* What a right program does beside its transactions: plain data in the same words as shared data, nodes that are
 * filled by plain stores, chains that a transaction takes out and plain code breaks up and frees, an array that grows
 * by realloc in an irrevocable block. */
#include "program.h"

enum { CHAINS = 16, PAIRS = 8 };
struct item {
    int key, plain;
    struct item *next;
    char *text;
    short low : 5, high : 7;
};
static struct {
    struct item *chain[CHAINS];
    struct {
        char plain, raised, locked;
    } pair[PAIRS];
    long *grown;
    int room, used;
} shared;
static pthread_mutex_t lock = PTHREAD_MUTEX_INITIALIZER;

static struct item *made(int key) {
    struct item *item = malloc(sizeof *item);
    *item = (struct item){.key = key, .plain = 1, .text = strdup("text"), .low = 3, .high = 4};
    return item;
}

static void put(struct item *item) {
    __transaction_atomic {
        struct item **chain = &shared.chain[item->key % CHAINS];
        item->next = *chain;
        item->low = item->key & 7;
        *chain = item;
        shared.pair[item->key % PAIRS].raised++;
    }
}

static void count_plainly(int key) {
    pthread_mutex_lock(&lock);
    shared.pair[key % PAIRS].locked++;
    pthread_mutex_unlock(&lock);
}

static void grow(int key) {
    __transaction_relaxed {
        if (shared.used == shared.room) {
            shared.room = 2 * shared.room + 4;
            shared.grown = realloc(shared.grown, shared.room * sizeof *shared.grown);
        }
        shared.grown[shared.used++] = key;
    }
}

static long sum(void) {
    long sum = 0;
    __transaction_atomic {
        for (int i = 0; i < shared.used; i++) sum += shared.grown[i];
        for (int i = 0; i < CHAINS; i++)
            for (struct item *at = shared.chain[i]; at; at = at->next) sum += at->key + at->text[1] + at->low;
    }
    return sum;
}

static void break_up(int key) {
    struct item *item, *next;
    __transaction_atomic {
        item = shared.chain[key % CHAINS];
        shared.chain[key % CHAINS] = 0;
    }
    for (; item; item = next) {
        next = item->next;
        item->key = item->text[0] = 0;
        free(item->text);
        free(item);
    }
}

void work(int thread, unsigned *seed) {
    long last = 0;
    (void)thread;
    for (int i = 0; i < rounds; i++) {
        int key = pick(seed, 1000);
        switch (pick(seed, 8)) {
        case 0: grow(key); break;
        case 1: break_up(key); break;
        case 2: case 3: last ^= sum(); break;
        default: put(made(key)); count_plainly(key);
        }
    }
    shared.pair[0].plain = last; /* nobody reads it */
}

void before(void) {
}

bool after(void) {
    return sum() >= 0;
}
