/* What the files of the library share. Compiled code calls it for each begin, end, load and store of an atomic block; it
 * hands what is shared to the engine, and serves the rest itself. Memory is told apart by its address:
 *
 *   shared    the region: the program's writable data and the heap behind it. Its words are the engine's cells.
 *   constant  what the program has in front of its writable data: read as it is.
 *   own       the thread's stack and thread-local storage, and what the open transaction has allocated: read and
 *             written at once, with an undo log.
 *   foreign   all else, such as another thread's stack or another library's data: read and written at once too, by a
 *             serial transaction, which all others wait for. */
#ifndef LIBRARY_H
#define LIBRARY_H
#define _GNU_SOURCE
#include <pthread.h>
#include <string.h>
#pragma GCC visibility push(hidden)
#include "engine.h"

#define ENTRY __attribute__((visibility("default")))
#define SLOW __attribute__((noinline, cold))
#define LIKELY(x) __builtin_expect(!!(x), 1)
#define UNLIKELY(x) __builtin_expect(!!(x), 0)

/* of the ABI: properties of a begin, its answers, and reasons of an abort */
enum { INSTRUMENTED = 1, UNINSTRUMENTED = 2, HAS_NO_ABORT = 8, GOES_IRREVOCABLE = 64 };
enum { RUN_INSTRUMENTED = 1, RUN_UNINSTRUMENTED = 2, SAVE_LIVE = 4, RESTORE_LIVE = 8, ABORTED = 16 };
enum { USER_ABORT = 1, OUTER_ABORT = 16 };

enum { PAGE = 4096 };

_Noreturn void fail(const char *form, ...);

/* -- begin.S -- */

/* What a call keeps, and where the begin returns to: `sp` is the stack pointer by then. */
struct registers {
    void *rbx, *rbp, *r12, *r13, *r14, *r15, *sp, *pc;
};

_Noreturn void return_again(uint32_t code, const struct registers *);

/* -- lists.c -- */

struct list {
    char *at;
    size_t used, room;
};

void *list_add(struct list *, size_t size);
void list_drop(struct list *);
void list_keep_room(struct list *, struct list *spent);

/* Of one argument, or of two, as `operator delete` of a size. */
struct action {
    void (*run)(void *);
    void (*run_sized)(void *, size_t);
    void *argument;
    size_t size;
};

static inline void run_action(struct action a) {
    if (a.run) a.run(a.argument);
    else a.run_sized(a.argument, a.size);
}

void add_action(struct list *, struct action);

/* -- blocks.c -- */

struct memory {
    uintptr_t at;
    size_t size;
};

static inline bool is_within(uintptr_t at, const struct memory *m) {
    return at - m->at < m->size;
}

/* A block that may be gone back to: how all stood as it began. */
struct block {
    struct registers registers;
    uint32_t props;
    int plain; /* of `tx`, by then */
    size_t undo, commits, undos, fresh;
    uint64_t id; /* once the program has asked for it */
};

/* A thread's transactions. In a serial one the engine's is irrevocable, so no other one commits; what it writes is in
 * its place at once, and the undo log has it all, so blocks that are not `fixed` can be cancelled. */
struct tx {
    struct block outermost;
    int depth;                   /* so many blocks are open, */
    int plain;                   /* and within the innermost one so many that are not gone back to */
    uintptr_t fast;              /* so many bytes of the region are shared for sure: none, or all up to what is fresh, */
    struct itm_c_thread *engine; /* its handle, its own or one that is lent, or none */
    uint64_t ended;              /* so many tries, however they ended */
    bool has_more;               /* what follows is not as a begin finds it */
    bool serial;
    int fixed;        /* so many blocks, from the outermost on, can't be cancelled any more */
    int engine_inner; /* so many inner blocks are the engine's too */
    int tries;
    struct list inner; /* struct block: those within the outermost one */
    struct list undo, commits, undos;
    struct list fresh; /* of memory.c, with the top of its tree, */
    uint32_t fresh_top;
    uintptr_t fresh_first, fresh_end; /* the places in the region between which all of it lies, */
    uintptr_t fast_behind;            /* and so many bytes behind that are shared for sure */
    bool has_unseen;  /* it was given memory, and may not have seen who freed that */
    uint64_t seen;    /* all commits below this clock it has seen */
    size_t witnesses; /* so many words it has read to see them */
    /* of threads.c and foreign.c */
    struct itm_c_thread own_engine;
    struct memory stack, tls;
    bool is_shared;         /* others use its stack or its thread-local storage */
    bool is_awaited;        /* somebody waits for the end of its open try, */
    uint64_t awaited;       /* the one after so many */
    uintptr_t foreign_page; /* that was used last, in this transaction */
    struct tx *next;
    uint64_t restarts, cancels, serials;
};

extern __thread struct tx tx __attribute__((tls_model("initial-exec")));

_Noreturn void call_failed(uint32_t code);
void become_serial(void);
void become_irrevocable(void);

static inline void served(uint32_t code) {
    if (UNLIKELY(code >= ITM_C_CONFLICT)) call_failed(code);
}

static inline struct block *block_at(int depth) {
    return depth ? (struct block *)tx.inner.at + depth - 1 : &tx.outermost;
}

/* A block is open that may yet be cancelled, in a transaction whose shared writes are in their place. */
static inline bool logs_shared(void) {
    return tx.serial && tx.depth > tx.fixed;
}

/* -- threads.c -- */

/* The threads that have had a transaction, under the lock. */
extern pthread_mutex_t threads_lock;
extern struct tx *first_thread;

void take_handle(void);
void give_handle(void);

/* -- foreign.c -- */

void find_own_memory(void);
bool was_used(const struct memory *);
void wait_for_owner(const void *p, size_t size);
void wait_a_little(unsigned times);

/* -- image.c -- */

/* The program's data, .data and .bss: they begin with the word that is to be the clock. `clock` is 0 where there is none. */
struct data {
    uintptr_t first, writable, clock, end;
};

extern size_t tls_size;

struct data find_data(void);

/* -- region.c -- */

extern struct memory region, constants;
extern bool is_verbose;

void find_region(void);

static inline uint64_t *the_clock(void) {
    return (uint64_t *)(region.at - 8);
}

static inline bool in_region(const void *p, size_t size) {
    uintptr_t at = (uintptr_t)p - region.at;
    return at < region.size && region.size - at >= size;
}

/* (A stack may lie in the region.) */
static inline void allow_fast(void) {
    if (LIKELY(!is_within((uintptr_t)tx.outermost.registers.sp, &region))) tx.fast = region.size;
}

/* What is fresh is looked up between the first and the last of it alone. */
static inline void set_fast(void) {
    tx.fast = tx.fast_behind = 0;
    if (!logs_shared() && !tx.has_unseen) allow_fast();
    if (tx.fast && tx.fresh_end) {
        tx.fast = tx.fresh_first;
        tx.fast_behind = region.size - tx.fresh_end;
    }
}

/* Of a part of one word, or a word. (What is fresh is taken to begin and end with a word.) */
static inline bool is_fast(uintptr_t place) {
    return LIKELY(place < tx.fast) || place - tx.fresh_end < tx.fast_behind;
}

static inline bool are_fast(uintptr_t place, size_t size) {
    if (place < tx.fast) return tx.fast - place >= size;
    place -= tx.fresh_end;
    return place < tx.fast_behind && tx.fast_behind - place >= size;
}

/* -- memory.c -- */

enum kind { SHARED, CONSTANT, OWN, FOREIGN };
enum kind kind_of(const void *p, size_t size);
void log_bytes(const void *p, size_t size);
void undo_to(int target);
void add_fresh(void *p, size_t size, void (*release)(void *));
void drop_fresh(const struct block *);
void find_witnesses(void);

/* -- barriers.c -- */

void read_bytes(const void *from, void *to, size_t size);
void write_bytes(void *to, const void *from, size_t size);
void read_shared(char *to, uint64_t place, size_t size);
void write_shared(uint64_t place, const char *from, size_t size);

#pragma GCC visibility pop

/* -- the C library's own memory, which is no transaction's -- */

extern void *__libc_malloc(size_t), *__libc_realloc(void *, size_t), *__libc_memalign(size_t, size_t);
extern void __libc_free(void *);
extern int __libc_mallopt(int, int);

#endif
