/* Questions, actions, and what is refused. */
#include "library.h"

enum { NO_TRANSACTION = 1 }; /* as an id */

static uint64_t last_id = NO_TRANSACTION;

ENTRY int _ITM_inTransaction(void) {
    return !tx.depth ? 0 : tx.fixed ? 2 : 1;
}

/* Of the innermost block: few programs ask, so it has none before. */
ENTRY uint64_t _ITM_getTransactionId(void) {
    if (!tx.depth) return NO_TRANSACTION;
    uint64_t *id = &block_at(tx.depth - 1)->id;
    if (!*id) *id = __atomic_add_fetch(&last_id, 1, __ATOMIC_RELAXED);
    tx.has_more = true;
    return *id;
}

/* Actions are kept here, though the engine has its own: a serial transaction may be cancelled, which to the engine is
 * irrevocable and has no undo actions; and what a block frees is due in one order with its commit actions. */
ENTRY void _ITM_addUserCommitAction(void (*run)(void *), uint64_t id, void *argument) {
    if (id != NO_TRANSACTION) fail("a commit action that another transaction resumes is not served");
    if (!tx.depth) fail("a commit action outside of a transaction");
    add_action(&tx.commits, (struct action){.run = run, .argument = argument});
}

ENTRY void _ITM_addUserUndoAction(void (*run)(void *), void *argument) {
    if (tx.depth > tx.fixed) add_action(&tx.undos, (struct action){.run = run, .argument = argument});
}

ENTRY int _ITM_versionCompatible(int version) {
    return version == 90;
}

ENTRY const char *_ITM_libraryVersion(void) {
    return "Sofjundel, ABI 0.90";
}

ENTRY void _ITM_error(const void *where, int code) {
    (void)where;
    fail("the program reports error %d", code);
}

#define REFUSED(NAME, WHY) \
    ENTRY void NAME(void) { fail(#NAME " is not served: " WHY); }
REFUSED(_ITM_dropReferences, "a transaction keeps what it has read")
REFUSED(_ITM_commitTransactionEH, "no exception may leave a transaction")
REFUSED(_ITM_cxa_allocate_exception, "nothing may be thrown in a transaction")
REFUSED(_ITM_cxa_free_exception, "nothing may be thrown in a transaction")
REFUSED(_ITM_cxa_throw, "nothing may be thrown in a transaction")
REFUSED(_ITM_cxa_begin_catch, "nothing may be caught in a transaction")
REFUSED(_ITM_cxa_end_catch, "nothing may be caught in a transaction")
