/* Commits and aborts, and the calls by which an attempt becomes irrevocable. */
#include "recorder.h"

static struct thread *before_commit(void) {
    struct thread *t = before();
    if (t && t->depth == 1) commit_called(t);
    return t;
}

static void committed(struct thread *t) {
    if (!t) return;
    if (t->depth <= DEEPEST) note(t, COMMIT, 0, 0, 0, 0, 0);
    if (t->depth > 1) t->depth--;
    else try_ended(t, 0);
}

ENTRY void _ITM_commitTransaction(void) {
    NEXT(_ITM_commitTransaction);
    struct thread *t = before_commit();
    real();
    committed(t);
}

/* The commit of a block that a C++ exception leaves. */
ENTRY void _ITM_commitTransactionEH(void *exception) {
    NEXT(_ITM_commitTransactionEH);
    struct thread *t = before_commit();
    real(exception);
    committed(t);
}

/* Comes back through begin_answered. */
ENTRY void _ITM_abortTransaction(int reason) {
    NEXT(_ITM_abortTransaction);
    struct thread *t = before();
    if (t) {
        t->reason = reason;
        t->target = reason & OUTER_ABORT ? 0 : t->depth - 1;
        if (t->target) note_own(t, STORE, 0);
    }
    real(reason);
}

static void irrevocable_now(struct thread *t) {
    if (!t) return;
    note(t, MODE, 0, 0, 0, 0, 0);
    if (!t->irrevocable) become_irrevocable(t);
}

ENTRY void _ITM_changeTransactionMode(int mode) {
    NEXT(_ITM_changeTransactionMode);
    struct thread *t = before();
    real(mode);
    irrevocable_now(t);
}

/* A function that has no clone is run as it is, and the attempt is irrevocable. */
ENTRY void *_ITM_getTMCloneOrIrrevocable(void *function) {
    NEXT(_ITM_getTMCloneOrIrrevocable);
    struct thread *t = before();
    void *clone = real(function);
    if (clone == function) irrevocable_now(t);
    return clone;
}
