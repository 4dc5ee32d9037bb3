/* Blocks: how they begin, end, are cancelled, and run again. */
#include "library.h"

__thread struct tx tx __attribute__((tls_model("initial-exec")));

_Static_assert(!offsetof(struct tx, outermost) && offsetof(struct tx, depth) == 112, "begin.S has them there");

/* After so many tries a transaction is serial, and so the next one is its last. */
enum { MOST_TRIES = 100 };

/* What a transaction finds so, and most leave so. */
static void reset_more(void) {
    tx.plain = tx.fixed = tx.engine_inner = tx.tries = 0;
    tx.inner.used = tx.undo.used = tx.commits.used = tx.undos.used = tx.fresh.used = 0;
    tx.fresh_top = 0;
    tx.fresh_first = tx.fresh_end = tx.seen = tx.witnesses = 0;
    tx.has_unseen = false;
    tx.foreign_page = tx.outermost.id = 0;
    tx.serial = tx.has_more = false;
}

static inline void end_try(void) {
    tx.fast = tx.fast_behind = 0;
    __atomic_store_n(&tx.depth, 0, __ATOMIC_RELEASE);
    tx.ended++;
}

/* The last one first. An action may have a transaction, which may add others at the end, or make the open one run again,
 * which has to find what has not run. */
static void run_undos(struct list *undos, size_t from) {
    for (size_t end = undos->used; end > from;) {
        end -= sizeof(struct action);
        struct action *at = (void *)(undos->at + end), a = *at;
        undos->used -= sizeof a;
        memmove(at, at + 1, undos->used - end);
        run_action(a);
    }
}

/* The outermost block is taken back, in the engine too. An action, and a `delete` of the program's, may have a transaction,
 * so none is open by then. */
static void end_taken_back(void) {
    drop_fresh(&tx.outermost);
    struct list undos = tx.undos;
    end_try();
    reset_more();
    if (!undos.used) return;
    tx.undos = (struct list){0};
    run_undos(&undos, 0);
    list_keep_room(&tx.undos, &undos);
}

/* -- begins -- */

static bool is_irrevocable(uint32_t props) {
    return props & GOES_IRREVOCABLE || !(props & INSTRUMENTED);
}

static uint32_t code_to_run(uint32_t props) {
    return props & INSTRUMENTED ? RUN_INSTRUMENTED : RUN_UNINSTRUMENTED;
}

/* No transaction is open meanwhile: who holds the clock may be waiting for that. */
static SLOW void wait_to_enter(uint32_t code, bool serial, bool again) {
    for (unsigned times = 0; code >= ITM_C_CONFLICT; times++) {
        if (code != ITM_C_BUSY && code != ITM_C_CONFLICT) fail("a transaction could not begin: %u", code);
        wait_a_little(times);
        code = itm_c_begin(tx.engine, false, false, serial, again);
    }
}

/* (No fence: a thread that looks whether another's transaction is open orders them all, see foreign.c.) */
static inline void enter(bool serial, bool again) {
    uint32_t code = itm_c_begin(tx.engine, false, false, serial, again);
    if (UNLIKELY(code >= ITM_C_CONFLICT)) wait_to_enter(code, serial, again);
    __atomic_store_n(&tx.depth, 1, __ATOMIC_RELEASE);
    __atomic_signal_fence(__ATOMIC_SEQ_CST);
}

static SLOW uint32_t enter_serial(uint32_t props, bool again) {
    enter(true, again);
    tx.has_more = tx.serial = true;
    tx.fixed = is_irrevocable(props) || props & HAS_NO_ABORT;
    tx.serials++;
    set_fast();
    return code_to_run(props);
}

static inline uint32_t open_try(uint32_t props, bool is_last, bool again) {
    if (UNLIKELY(is_irrevocable(props) || is_last)) return enter_serial(props, again);
    enter(false, again);
    allow_fast();
    return RUN_INSTRUMENTED;
}

uint32_t begin_outermost(uint32_t props) {
    tx.outermost.props = props;
    if (UNLIKELY(!tx.engine)) take_handle();
    return open_try(tx.outermost.props, false, false) | SAVE_LIVE;
}

/* GCC 12 may leave code that follows an inner block without barriers, so by the end of that block what the transaction
 * has written has to be in its place: it is serial from then on, and where the block around may be cancelled too, from
 * its begin on. There the undo log alone takes an inner block back. */
static void open_inner(uint32_t props, const struct registers *r) {
    if (tx.depth > 1 || !(tx.outermost.props & HAS_NO_ABORT)) become_serial();
    *(struct block *)list_add(&tx.inner, sizeof(struct block)) = (struct block){
        *r, props, tx.plain, tx.undo.used, tx.commits.used, tx.undos.used, tx.fresh.used, 0,
    };
    if (!tx.serial) {
        served(itm_c_begin(tx.engine, false, false, false, false));
        tx.engine_inner++;
    }
    tx.plain = 0;
    tx.depth++;
    set_fast();
}

/* A block that is not cancelled by its own code begins and ends with the one around it. */
uint32_t begin_inner(uint32_t props, const struct registers *r) {
    uint32_t kept = 0;
    if (props & HAS_NO_ABORT) {
        tx.plain++;
    } else {
        open_inner(props, r);
        kept = SAVE_LIVE;
    }
    if (is_irrevocable(props)) become_irrevocable();
    return code_to_run(props) | kept;
}

/* -- tries that have failed -- */

/* The engine has rolled the transaction back. (An action's own transaction has the outermost block's place meanwhile, and may
 * have given a lent handle away.) */
static _Noreturn void restart(int tries) {
    struct block b = tx.outermost;
    undo_to(0);
    tx.restarts++;
    end_taken_back();
    tx.outermost = b;
    tx.outermost.id = 0;
    if (!tx.engine) take_handle();
    tx.has_more = true;
    tx.tries = tries;
    bool is_last = tries > MOST_TRIES;
    if (!is_last) wait_a_little(tries);
    uint32_t code = open_try(b.props, is_last, true);
    return_again(code | RESTORE_LIVE, &tx.outermost.registers);
}

void become_serial(void) {
    if (tx.serial) return;
    served(itm_c_cancel(tx.engine, true));
    restart(MOST_TRIES + 1);
}

void call_failed(uint32_t code) {
    if (code == ITM_C_CONFLICT) restart(tx.tries + 1);
    if (code == ITM_C_MEMORY) become_serial(); /* such a one takes no memory of the engine */
    if (code == ITM_C_MEMORY) fail("no memory for a transaction");
    if (code == ITM_C_FULL) fail("2^62 - 1 transactions have committed");
    fail("the engine refused a call: %u", code);
}

/* Code runs that nothing is known of: no block that is open can be cancelled any more. */
void become_irrevocable(void) {
    if (!tx.serial) {
        uint32_t code = itm_c_irrevocable(tx.engine);
        if (code == ITM_C_CONFLICT) restart(MOST_TRIES + 1);
        served(code);
        tx.has_more = tx.serial = true;
        tx.serials++;
    }
    tx.fixed = tx.depth;
    tx.undo.used = tx.undos.used = 0;
    set_fast();
}

ENTRY void _ITM_changeTransactionMode(int mode) {
    if (mode != 0) fail("transaction mode %d is not served", mode);
    if (!tx.depth) fail("a change of mode outside of a transaction");
    become_irrevocable();
}

/* -- ends -- */

/* (An action may run a transaction.) */
static void run_commits(struct list due) {
    tx.commits = (struct list){0};
    for (size_t i = 0; i < due.used; i += sizeof(struct action)) run_action(*(struct action *)(due.at + i));
    list_keep_room(&tx.commits, &due);
}

/* The blocks behind the first so many are over, and the outermost one is not. */
static void drop_blocks(int depth) {
    tx.depth = depth;
    tx.plain = block_at(depth)->plain;
    tx.inner.used = (depth - 1) * sizeof(struct block);
}

static void commit_inner(void) {
    if (tx.engine_inner == tx.depth - 1) {
        served(itm_c_commit(tx.engine));
        tx.engine_inner--;
    }
    drop_blocks(tx.depth - 1);
    if (tx.fixed > tx.depth) tx.fixed = tx.depth;
    if (tx.fixed == tx.depth) tx.undo.used = tx.undos.used = 0;
    if (tx.serial) set_fast();
    else become_irrevocable();
}

static SLOW void end_inner(void) {
    if (!tx.depth) fail("a commit outside of a transaction");
    if (tx.plain) tx.plain--;
    else commit_inner();
}

static __attribute__((noinline)) void end_more(void) {
    struct list due = tx.commits;
    reset_more();
    give_handle();
    if (due.used) run_commits(due);
}

ENTRY void _ITM_commitTransaction(void) {
    if (UNLIKELY(tx.depth != 1 || tx.plain)) {
        end_inner();
        return;
    }
    served(itm_c_commit(tx.engine));
    end_try();
    if (UNLIKELY(tx.has_more)) end_more();
}

/* A serial transaction puts the bytes back, and commits that. */
static void cancel_in_engine(int target) {
    if (tx.serial && target) return;
    served(tx.serial ? itm_c_commit(tx.engine) : itm_c_cancel(tx.engine, !target));
    tx.engine_inner = target - 1;
}

ENTRY _Noreturn void _ITM_abortTransaction(int reason) {
    int target = reason & OUTER_ABORT ? 0 : tx.depth - 1;
    if (!tx.depth) fail("a cancel outside of a transaction");
    if ((reason & ~OUTER_ABORT) != USER_ABORT) fail("an abort for reason %d is not served", reason);
    if (target < tx.fixed) fail("a block can't be cancelled once unsafe code has run in it");
    struct block b = *block_at(target);
    undo_to(target);
    cancel_in_engine(target);
    if (target) {
        drop_blocks(target);
        tx.commits.used = b.commits;
        drop_fresh(&b);
        set_fast();
        run_undos(&tx.undos, b.undos);
    } else {
        tx.cancels++;
        end_taken_back();
        give_handle();
    }
    return_again(ABORTED | RESTORE_LIVE, &b.registers);
}
