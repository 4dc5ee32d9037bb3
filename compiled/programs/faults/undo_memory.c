/* An undo action uses what its block has allocated, which goes only behind it; and has a transaction that allocates, which
 * stays. Outermost blocks, and inner ones. */
#include "fault.h"

enum { ROUNDS = 500 };
extern void _ITM_addUserUndoAction(void (*)(void *), void *) PURE;
struct node {
    struct node *next;
    long value;
};
static struct node *notes;
static long taken_back;

static void note(void *made) {
    struct node *from = made;
    bool is_same;
    from->value = 77;
    __transaction_atomic {
        struct node *n = malloc(sizeof *n);
        n->value = 5;
        n->next = notes;
        notes = n;
        is_same = n == from;
    }
    CHECK(!is_same && from->value == 77, "memory was released before its block's action ran");
}

static void outermost(void) {
    __transaction_atomic {
        struct node *n = malloc(sizeof *n);
        n->value = 1;
        taken_back++;
        _ITM_addUserUndoAction(note, n);
        __transaction_cancel;
    }
}

static void inner(void) {
    __transaction_atomic {
        __transaction_atomic {
            struct node *n = malloc(sizeof *n);
            n->value = 1;
            _ITM_addUserUndoAction(note, n);
            __transaction_cancel;
        }
        taken_back++;
    }
}

static void *work(void *none) {
    for (int i = 0; i < ROUNDS; i++) {
        outermost();
        inner();
    }
    return none;
}

int main(int count, char **words) {
    long found = 0;
    take_words(count, words);
    run_all(threads, work);
    for (struct node *n = notes; n; n = n->next) found += n->value == 5;
    CHECK(taken_back == (long)threads * ROUNDS, "%ld inner blocks", taken_back);
    CHECK(found >= 2l * threads * ROUNDS, "%ld notes", found);
    return done();
}
