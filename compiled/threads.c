/* Threads: how they come and go, and whose handle of the engine they use. */
#include "library.h"
#include <stdio.h>
#include <stdlib.h>

/* The engine has 127 handles. A thread has one for itself, and who comes once these are taken is lent one for each
 * transaction. */
enum { OWN_HANDLES = 119, LENT_HANDLES = 8 };

static struct itm_c_words words;
static int own_handles;
static struct lent {
    struct itm_c_thread engine;
    bool is_out;
} lent[LENT_HANDLES];

pthread_mutex_t threads_lock = PTHREAD_MUTEX_INITIALIZER;
struct tx *first_thread;
static pthread_cond_t handle_is_free = PTHREAD_COND_INITIALIZER;
static uint64_t all_committed, all_restarts, all_serials;
static pthread_key_t leaving;

/* -- counts -- */

static void add_counts(void) {
    all_committed += tx.ended - tx.restarts - tx.cancels;
    all_restarts += tx.restarts, all_serials += tx.serials;
    tx.ended = tx.restarts = tx.cancels = tx.serials = 0;
}

/* Threads that are there still are not counted. */
static void tell_counts(void) {
    pthread_mutex_lock(&threads_lock);
    add_counts();
    fprintf(stderr, "libitm (Sofjundel): %lu committed, %lu restarts, %lu serial\n", all_committed, all_restarts, all_serials);
    pthread_mutex_unlock(&threads_lock);
}

/* -- the process -- */

static void start(void);
static void leave(void *);

/* (Under the lock.) */
static void open_engine(void) {
    struct itm_c_cells cells = {the_clock(), (region.size + 8) / 8};
    static bool is_first = true;
    if (*cells.at) fail("the word before the program's data is in use");
    uint32_t code = itm_c_open(cells, &words);
    if (code) fail("the engine could not open the region: %u", code);
    if (is_first && pthread_key_create(&leaving, leave)) fail("no key for threads");
    if (is_first && is_verbose) atexit(tell_counts);
    is_first = false;
}

/* -- handles, under the lock -- */

static bool has_entered(struct itm_c_thread *engine) {
    uint32_t code = itm_c_enter(&words, engine);
    if (code && code != ITM_C_NO_SEAT && code != ITM_C_MEMORY) fail("a thread could not enter: %u", code);
    return !code;
}

static struct itm_c_thread *lent_handle(void) {
    bool is_any_out = false;
    for (struct lent *l = lent; l < lent + LENT_HANDLES; l++) {
        is_any_out |= l->is_out;
        if (l->is_out || (!l->engine.at && !has_entered(&l->engine))) continue;
        l->is_out = tx.has_more = true;
        return &l->engine;
    }
    if (!is_any_out) fail("no memory for a thread");
    return 0;
}

static struct itm_c_thread *find_handle(void) {
    if (own_handles == OWN_HANDLES || !has_entered(&tx.own_engine)) return lent_handle();
    own_handles++;
    return &tx.own_engine;
}

static void add_thread(void) {
    tx.is_shared = was_used(&tx.stack) || was_used(&tx.tls);
    tx.next = first_thread;
    first_thread = &tx;
    pthread_setspecific(leaving, &tx);
}

/* (A thread that was cancelled here would keep the lock. And a transaction may come before the library's start.) */
void take_handle(void) {
    int cancelled;
    bool is_new = !tx.stack.size;
    pthread_setcancelstate(PTHREAD_CANCEL_DISABLE, &cancelled);
    start();
    if (is_new) find_own_memory();
    pthread_mutex_lock(&threads_lock);
    if (!words.at) open_engine();
    if (is_new) add_thread();
    while (!(tx.engine = find_handle())) pthread_cond_wait(&handle_is_free, &threads_lock);
    pthread_mutex_unlock(&threads_lock);
    pthread_setcancelstate(cancelled, 0);
}

/* -- a child of a fork: what the other threads did with their handles they have not ended, so it leaves the engine as it is,
 * and opens the region anew. No commit of theirs was under way by the fork. -- */

static bool has_lost_handles;

static void forget_engine(void) {
    words = (struct itm_c_words){0};
    memset(lent, 0, sizeof lent);
    own_handles = 0;
    tx.own_engine = (struct itm_c_thread){0};
    tx.engine = 0;
    has_lost_handles = false;
    *the_clock() = 0;
}

/* Forked within a transaction it goes on with its handle, and does so behind that, if it has no thread that uses the
 * engine by then. */
static SLOW void forget_if_alone(void) {
    pthread_mutex_lock(&threads_lock);
    if (first_thread == &tx && !tx.next) forget_engine();
    pthread_mutex_unlock(&threads_lock);
}

/* Where it is a lent one, and an action's transaction has not given it yet. */
void give_handle(void) {
    if (UNLIKELY(has_lost_handles)) forget_if_alone();
    if (!tx.engine || tx.engine == &tx.own_engine) return;
    pthread_mutex_lock(&threads_lock);
    ((struct lent *)tx.engine)->is_out = false;
    tx.engine = 0;
    pthread_cond_signal(&handle_is_free);
    pthread_mutex_unlock(&threads_lock);
}

/* -- a thread ends -- */

static void remove_thread(void) {
    struct tx **link = &first_thread;
    while (*link != &tx) link = &(*link)->next;
    *link = tx.next;
}

static void leave(void *none) {
    struct list *lists[] = {&tx.inner, &tx.undo, &tx.commits, &tx.undos, &tx.fresh};
    (void)none;
    if (tx.depth) fail("a thread ends within a transaction");
    give_handle();
    pthread_mutex_lock(&threads_lock);
    if (tx.engine) {
        if (itm_c_leave(&words, tx.engine)) fail("a thread could not leave");
        own_handles--;
        pthread_cond_signal(&handle_is_free);
    }
    remove_thread();
    add_counts();
    pthread_mutex_unlock(&threads_lock);
    for (int i = 0; i < 5; i++) list_drop(lists[i]);
    tx = (struct tx){0};
}

/* -- fork: while the clock is held no commit of another thread is under way, so the child's memory is whole. Without an
 * engine there is none either, and none is opened under the lock. -- */

static __thread bool holds_clock __attribute__((tls_model("initial-exec")));

static void before_fork(void) {
    pthread_mutex_lock(&threads_lock);
    holds_clock = words.at && !tx.depth;
    if (!holds_clock) return;
    pthread_mutex_unlock(&threads_lock);
    if (!tx.engine) take_handle();
    for (unsigned times = 0; itm_c_begin(tx.engine, false, false, true, false) != ITM_C_ENTERED; times++)
        wait_a_little(times);
    pthread_mutex_lock(&threads_lock);
}

static void after_fork(void) {
    pthread_mutex_unlock(&threads_lock);
    if (!holds_clock) return;
    if (itm_c_commit(tx.engine) >= ITM_C_CONFLICT) fail("the clock could not be freed after a fork");
    give_handle();
}

static void in_child(void) {
    handle_is_free = (pthread_cond_t)PTHREAD_COND_INITIALIZER;
    first_thread = tx.stack.size ? &tx : 0;
    tx.next = 0;
    has_lost_handles = words.at;
    if (holds_clock) forget_engine();
    pthread_mutex_unlock(&threads_lock);
}

static __attribute__((constructor)) void start(void) {
    if (region.size) return;
    find_region();
    pthread_atfork(before_fork, after_fork, in_child);
}
