/* What the files of the recorder share: the shared memory, the notes of a thread, and what is done before each call.
 *
 * The recorder stands between a program built with `gcc -fgnu-tm` and its runtime (LD_PRELOAD, x86-64). Each call of
 * the TM ABI is passed on and noted. At exit, or where the program crashes, tell.c writes the recording.
 *
 * RECORD_TO      the file of the recording; nothing is written where it is not set
 * RECORD_CALLS   so many calls are noted at most, then the program is ended; all are where it is not set
 * RECORD_ORDER   how the order of the commits becomes known, `outside` or `inside` (order.c)
 * RECORD_PAUSES  N: one call in about N sleeps first, up to 64 us, so that short attempts of several threads meet
 * RECORD_WRITES  where what an attempt wrote is found up to its commit: `in_place`, or `buffered` by the runtime */
#ifndef RECORDER_H
#define RECORDER_H
#define _GNU_SOURCE
#include <stdatomic.h>
#include <stdbool.h>
#include <stddef.h>
#include <stdint.h>
#include <string.h>

typedef unsigned char byte;

/* Seen by the program and the runtime; all else is hidden, or a function of the program could stand in for it. */
#define ENTRY __attribute__((visibility("default")))

/* of the ABI: properties of a begin, answers of a begin, the reason of an abort */
enum { INSTRUMENTED = 1, UNINSTRUMENTED = 2, NO_ABORT = 8, NO_IRREVOCABLE = 32, GOES_IRREVOCABLE = 64 };
enum { AGAIN = 8, CANCELLED = 16 };
enum { OUTER_ABORT = 16 };

/* of a history */
enum { DEEPEST = 16, LAST_TRY = 10001, ARENA = 4096 };

/* limits of the recorder */
enum { BLOCKS = 1024, THREADS = 4096, LOGS = 64 };

_Noreturn void fail(const char *form, ...);

/* Address space; pages cost once they are used. */
void *reserve(size_t size);

/* The runtime's own entry of this name. */
void *next(const char *name);
#define NEXT(NAME)                 \
    static __typeof__(NAME) *real; \
    if (!real) real = next(#NAME)

/* -- space.c: the shared memory, as one row of bytes. A place is an index into it. -- */

struct word {
    uint64_t opening;     /* its bytes as transactions first touched them */
    uint64_t known;       /* its bytes as the attempt that is irrevocable left them (irrevocable.c) */
    uint32_t number;      /* among the words that are told, by address (tell_words.c) */
    bool told;            /* whether it is one of them */
    _Atomic byte touched; /* a bit for each byte */
};

struct region {
    byte *at;
    size_t size, first; /* its first place */
};

#define NOWHERE ((size_t)-1)

extern struct region regions[];
extern int region_count;
extern struct word *words;
extern size_t *touched_words; /* by transactions, in the order of their first touch */
extern size_t touched_count;
extern size_t space; /* its bytes */

void open_space(void);
void first_touch(size_t word, byte bits);
void last_touch(const void *p, size_t size);
byte *address_of(size_t place);
uint64_t mask_of(byte bits);

static inline uint64_t word_now(size_t word) {
    uint64_t now;
    memcpy(&now, address_of(8 * word), 8);
    return now;
}

static inline size_t place_of(const void *p, size_t size) {
    for (int i = 0; i < region_count; i++) {
        size_t offset = (uintptr_t)p - (uintptr_t)regions[i].at;
        if (offset < regions[i].size && size <= regions[i].size - offset) return regions[i].first + offset;
    }
    return NOWHERE;
}

/* Before a call with these places is passed on: their opening bytes are kept, if they are not yet. */
static inline void touch(size_t place, size_t size) {
    for (size_t end = place + size, stop; place < end; place = stop) {
        stop = (place | 7) + 1 < end ? (place | 7) + 1 : end;
        byte bits = ((1u << (stop - place)) - 1) << place % 8;
        if (bits & ~atomic_load_explicit(&words[place / 8].touched, memory_order_acquire)) first_touch(place / 8, bits);
    }
}

/* -- heap.c: the program's malloc. -- */

struct block {
    size_t chunk; /* bytes up to the next block */
    size_t size;
    byte *memory;
    const void *caller; /* where the program asked for it */
    _Atomic size_t freed;
    size_t back; /* from the memory to here; it stands right before the memory */
};

extern size_t heap_size;
byte *heap_memory(void);
const struct block *first_block(void);
const struct block *block_after(const struct block *);

/* -- notes.c: what a thread has done. -- */

enum kind { TRY, BEGIN, COMMIT, ABORT, MODE, READ, WRITE, LOAD, STORE, COPY, SET, LOG, END };

struct event {
    const char *name; /* of the entry; of END the outcome */
    uint64_t a, b;    /* places; of TRY properties and number; of END the range of positions */
    uint32_t size;    /* of END: so many commits had returned */
    byte kind;
    byte data[]; /* the bytes of all from READ to COPY, and of LOG */
};

struct own {
    const byte *at;
    size_t size, place;
};

struct thread {
    byte *start, *end; /* its events */
    uint64_t share;    /* what it may still note before it asks for more */
    int depth;         /* open blocks */
    struct {
        void *back; /* where the program goes on behind its begin */
        struct event *begin;
    } block[BLOCKS];
    int reason, target; /* of the abort under way: the block that it cancels, from 0 */
    bool wrote, irrevocable, committing;
    uint64_t low;           /* so many commits had returned before this attempt began, */
    uint64_t seen;          /* and before the next one will begin */
    uint64_t position;      /* of the commit under way, or the least that it may have */
    uint64_t elsewhere;     /* accesses outside the space */
    struct own own[LOGS];   /* the memory of its own that the attempt logged */
    size_t own_count, arena;
    bool mixed; /* two logs have some bytes in common, and not all */
    byte *told; /* the end of what is told of its events */
};

extern struct thread *threads[];
extern atomic_int thread_count;
extern __thread struct thread *self;
extern uint64_t most_calls; /* that are noted */

struct thread *new_thread(void);
struct event *note(struct thread *, enum kind, const char *name, uint64_t a, uint64_t b, size_t size, const void *data);
void note_bytes(struct thread *, enum kind, size_t place, const byte *from, size_t size);
const struct event *event_after(const struct event *);

/* -- order.c: the order of the commits. -- */

extern bool inside;
void open_order(void);
uint64_t commits_returned(void);
uint64_t commits_called(void);
uint64_t commits_so_far(void);
void commit_called(struct thread *);
void try_ended(struct thread *, const char *outcome);

/* -- irrevocable.c: attempts that store without the ABI. -- */

void become_irrevocable(struct thread *);
void note_stores(struct thread *);
void note_known(struct thread *, size_t place, size_t size);

/* -- own.c: what an attempt logged of its thread's own memory. -- */

void logged(struct thread *, const char *name, const void *p, size_t size);
void note_own(struct thread *, enum kind, const byte *stack);

/* -- start.c, begin.c, tell.c -- */

extern unsigned pauses;
extern bool is_buffered;
extern atomic_bool stopping;
extern void *runtime_begin;
void set_up(void);
void pause_now_and_then(void);
void write_recording(void);
_Noreturn void stop_here(int signal);
_Noreturn void stop_full(const char *why);

/* Before a call is passed on. The thread where it is in a transaction. */
static inline struct thread *before(void) {
    struct thread *t = self;
    if (!t || !t->depth) return 0;
    if (__builtin_expect(pauses, 0)) pause_now_and_then();
    if (__builtin_expect(t->irrevocable, 0)) note_stores(t);
    return t;
}

#endif
