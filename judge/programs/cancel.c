/* Seats: a block that books some and cancels itself, or the part that a block within it did. Each seat is looked at
 * before it is taken, so that GCC at -O2 emits a read and then a write after read. */
#include "program.h"

enum { SEATS = 40, WANTED = 3 };
static struct {
    int holder[SEATS];
    int booked, refused;
} shared;

static void book(int who, const int *seat) {
    __transaction_atomic {
        for (int i = 0; i < WANTED; i++) {
            if (shared.holder[seat[i]]) __transaction_cancel;
            shared.holder[seat[i]] = who;
            shared.booked = shared.booked + 1;
        }
    }
}

/* The first seat stays booked where the second one is taken. `got` is the thread's own memory: GCC logs it, so that a
 * cancel takes back what was put there. How many it got. */
static int book_some(int who, const int *seat, int first) {
    int got[2] = {0, 0};
    __transaction_atomic {
        if (shared.holder[seat[0]]) __transaction_cancel;
        shared.holder[seat[0]] = who;
        got[first] = 1;
        __transaction_atomic {
            if (!shared.holder[seat[2]]) shared.holder[seat[2]] = who;
            got[!first] = 1;
            if (shared.holder[seat[1]]) __transaction_cancel;
            shared.holder[seat[1]] = who;
        }
        if (shared.holder[seat[1]] != who) shared.refused = shared.refused + 1;
    }
    return got[0] + got[1];
}

static void leave(int who) {
    __transaction_atomic {
        for (int i = 0; i < SEATS; i++)
            if (shared.holder[i] == who) shared.holder[i] = 0;
    }
}

void work(int thread, unsigned *seed) {
    for (int i = 0; i < rounds; i++) {
        int seat[WANTED] = {pick(seed, SEATS), pick(seed, SEATS), pick(seed, SEATS)};
        switch (pick(seed, 4)) {
        case 0: case 1: book(thread + 1, seat); break;
        case 2: if (book_some(thread + 1, seat, i & 1) > 2) complain("cancel: too many seats"); break;
        default: leave(thread + 1);
        }
    }
}

void before(void) {
}

bool after(void) {
    return true;
}
