/* A sorted list whose nodes lie in an array, with small fields: inserts, removals and walks. */
#include "program.h"

enum { NODES = 128, KEYS = 64, NONE = -1 };
struct node {
    int key;
    short next, used;
};
static struct {
    struct node node[NODES];
    short head, free;
    int length;
} shared;

__attribute__((transaction_safe)) static short *link_to(int key) {
    short *link = &shared.head;
    while (*link != NONE && shared.node[*link].key < key) link = &shared.node[*link].next;
    return link;
}

static void insert(int key) {
    __transaction_atomic {
        short *link = link_to(key), fresh = shared.free;
        if ((*link == NONE || shared.node[*link].key != key) && fresh != NONE) {
            shared.free = shared.node[fresh].next;
            shared.node[fresh] = (struct node){key, *link, 1};
            *link = fresh;
            shared.length++;
        }
    }
}

static void drop(int key) {
    __transaction_atomic {
        short *link = link_to(key), old = *link;
        if (old != NONE && shared.node[old].key == key) {
            *link = shared.node[old].next;
            shared.node[old] = (struct node){0, shared.free, 0};
            shared.free = old;
            shared.length--;
        }
    }
}

static bool is_whole(void) {
    int count = 0, length;
    __transaction_atomic {
        for (short at = shared.head; at != NONE; at = shared.node[at].next) count++;
        length = shared.length;
    }
    return count == length;
}

void work(int thread, unsigned *seed) {
    (void)thread;
    for (int i = 0; i < rounds; i++) {
        int key = pick(seed, KEYS);
        switch (pick(seed, 5)) {
        case 0: case 1: insert(key); break;
        case 2: case 3: drop(key); break;
        default: if (!is_whole()) complain("list: another length");
        }
    }
}

void before(void) {
    for (int i = 0; i < NODES; i++) shared.node[i].next = i + 1 < NODES ? i + 1 : NONE;
    shared.head = NONE;
}

bool after(void) {
    return is_whole();
}
