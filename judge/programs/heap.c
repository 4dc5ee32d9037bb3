/* A sorted list on the heap. Nodes are made before a transaction, and filled by plain stores, or inside; they are freed
 * inside, or behind the transaction that took them out. A block that has made or freed a node may cancel itself; what
 * it wrote to shared memory by then it had looked at before (undo.c has the other way). */
#include "program.h"

enum { KEYS = 48 };
struct node {
    long key;
    struct node *next;
    int weight;
    char name[12];
};
static struct {
    struct node *head;
} shared;

static struct node *filled(struct node *node, int key) {
    memset(node, 0, sizeof *node);
    node->key = key;
    node->weight = 3 * key;
    snprintf(node->name, sizeof node->name, "n%d", key);
    return node;
}

__attribute__((transaction_safe)) static struct node **link_to(long key) {
    struct node **link = &shared.head;
    while (*link && (*link)->key < key) link = &(*link)->next;
    return link;
}

__attribute__((transaction_safe)) static void hang_in(struct node **link, struct node *node) {
    node->next = *link;
    *link = node;
}

static void insert_made_before(int key) {
    struct node *made = filled(malloc(sizeof *made), key);
    bool used = false;
    __transaction_atomic {
        struct node **link = link_to(key);
        if (!*link || (*link)->key != key) {
            hang_in(link, made);
            used = true;
        }
    }
    if (!used) free(made);
}

/* Makes the node first, and takes everything back where there is such a key already. */
static void insert_made_inside(int key) {
    __transaction_atomic {
        struct node **link = link_to(key);
        struct node *made = calloc(1, sizeof *made);
        made->key = key;
        made->weight = 3 * key;
        if (*link && (*link)->key == key) __transaction_cancel;
        hang_in(link, made);
    }
}

__attribute__((transaction_safe)) static struct node *taken_out(int key) {
    struct node **link = link_to(key), *old = *link;
    if (!old || old->key != key) return 0;
    *link = old->next;
    return old;
}

static void free_inside(int key, bool keep) {
    __transaction_atomic {
        free(taken_out(key));
        if (keep) __transaction_cancel;
    }
}

static void free_behind(int key) {
    struct node *old;
    __transaction_atomic { old = taken_out(key); }
    if (old) filled(old, -1); /* it is this thread's alone by now */
    free(old);
}

/* A copy of a node in the thread's own memory of the heap, which is stored to inside and outside transactions. */
static void look_up(int key, struct node *copy) {
    copy->key = -1;
    __transaction_atomic {
        struct node *found = *link_to(key);
        if (found) *copy = *found;
    }
    if (copy->key >= 0 && copy->weight != 3 * copy->key) complain("heap: a torn node");
}

static bool is_whole(void) {
    bool whole = true;
    __transaction_atomic {
        long last = -1;
        for (struct node *at = shared.head; at; at = at->next) {
            whole = whole && last < at->key && at->weight == 3 * at->key && (!at->name[0] || at->name[0] == 'n');
            last = at->key;
        }
    }
    return whole;
}

void work(int thread, unsigned *seed) {
    struct node *copy = malloc(sizeof *copy);
    (void)thread;
    for (int i = 0; i < rounds; i++) {
        int key = pick(seed, KEYS);
        switch (pick(seed, 12)) {
        case 0: case 1: case 2: insert_made_before(key); break;
        case 3: case 4: insert_made_inside(key); break;
        case 5: case 6: free_inside(key, false); break;
        case 7: free_inside(key, true); break;
        case 8: free_behind(key); break;
        case 9: case 10: look_up(key, copy); break;
        default: if (!is_whole()) complain("heap: a node is wrong, or out of order");
        }
    }
    free(copy);
}

void before(void) {
    for (int key = 0; key < KEYS; key += 2) insert_made_before(key);
}

bool after(void) {
    return is_whole();
}
