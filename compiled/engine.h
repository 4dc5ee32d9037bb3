/* The calls of the proved static library itm_c: one export a call on the engine. A place is the number of a byte, counted
 * from the first byte of the words: cell 1 of `itm_c_open`. The crate's clauses say what each call keeps and tells; what C
 * owes in return stands with each call, and is not checked.
 *
 * Of all: one call at a time on a handle, and between calls from two threads on one handle a lock, a start or a join of a
 * thread. The two handles of one call are not the same one. A handle is left as the last call left it. No call from a
 * signal handler. A child of fork makes no call on a handle on which one may have been under way. Once it uses none any more
 * it may put the clock to 0 and open the cells anew, if no commit of another thread was under way by the fork. */
#ifndef ITM_C_ENGINE_H
#define ITM_C_ENGINE_H

#include <stdbool.h>
#include <stddef.h>
#include <stdint.h>

/* What a call came to. Below ITM_C_CONFLICT it was served; from there on the transaction does not go on as the program
 * has it. */
enum itm_c_code {
    ITM_C_DONE = 0,
    ITM_C_ENTERED = 5,        /* a block was entered */
    ITM_C_ENTERED_AGAIN = 9,  /* an outermost block was entered that an earlier try had entered */
    ITM_C_CANCELLED = 24,     /* a block was cancelled, or with `outer` all of them */
    ITM_C_READ_ONLY = 32,     /* the transaction committed, and had written nothing */
    ITM_C_COMMITTED = 33,     /* the transaction committed, and what it wrote stands in the cells */

    ITM_C_CONFLICT = 64,      /* the whole transaction is rolled back: begin it again, with `again` */
    ITM_C_RESTARTED = 65,     /* the innermost block is rolled back to its begin (only where restarts are allowed) */
    ITM_C_BUSY = 66,          /* a begin found the clock held, and nothing has begun: begin again */
    ITM_C_FULL = 67,          /* 2^62 - 1 transactions have committed: the transaction is rolled back, and none writes more */
    ITM_C_MEMORY = 68,        /* memory was refused, and nothing is changed */
    ITM_C_NO_SEAT = 69,       /* 127 threads have entered: enter again once one has left */
    ITM_C_HELD = 70,          /* the thread's transaction is irrevocable: it has to commit before it leaves */
    ITM_C_STILL_ENTERED = 71, /* a thread that entered has not left */

    ITM_C_REFUSED = 80,       /* and the number of why; nothing is changed */
    ITM_C_OUTSIDE = 81,       /* no transaction is open */
    ITM_C_OUT_OF_RANGE = 82,  /* bytes that are not all in the words */
    ITM_C_OVERLAP = 84,       /* the two ranges of a copy that does not move have a byte in common */
    ITM_C_NO_ABORT = 85,      /* a block that would be cancelled has the property that it is not */
    ITM_C_IS_IRREVOCABLE = 86, /* the transaction is irrevocable, and can't be cancelled */
    ITM_C_NO_IRREVOCABLE = 87, /* an open block has the property that it does not become irrevocable */
    ITM_C_TOO_DEEP = 88       /* 64 blocks are open */
};

/* The words and the right to step through them, or a thread over them: begins as {0}, and is empty again once it is closed
 * or has left. */
struct itm_c_words { void *at; };
struct itm_c_thread { void *at; };

/* So many cells of 8 bytes, one after the other, on a boundary of 8. The first one is the clock, and has to be 0. */
struct itm_c_cells {
    uint64_t *at;
    size_t count;
};

/* The number of the bytes that were read, the low one first; 0 where `code` is not ITM_C_DONE. */
struct itm_c_number {
    uint64_t value;
    uint32_t code;
};

/* Opens the words where they lie: 2 to 2^32 - 7 cells, none of which is written or read now; from here on they are the
 * engine's. ITM_C_DONE, or ITM_C_MEMORY, or ITM_C_OUT_OF_RANGE for another number of cells: then `out` is empty. */
uint32_t itm_c_open(struct itm_c_cells cells, struct itm_c_words *out);

/* A thread over the words, outside a transaction. ITM_C_DONE, ITM_C_NO_SEAT or ITM_C_MEMORY: then `out` is empty.
 * One call at a time on `words`; `out` is empty before. */
uint32_t itm_c_enter(struct itm_c_words *words, struct itm_c_thread *out);

/* The thread leaves, an open transaction is rolled back, and its seat is free. ITM_C_DONE, or ITM_C_HELD: then the
 * handle is as it was. One call at a time on `words`, which the thread entered. */
uint32_t itm_c_leave(struct itm_c_words *words, struct itm_c_thread *thread);

/* Gives the words up, and the cells are C's again: `out` tells where they lie. The first is twice the number of commits, and
 * the others hold what all commits have left. ITM_C_DONE, or ITM_C_STILL_ENTERED: then nothing is changed. Before, `out` is
 * of no cells: a count of 0, at an address that is not null. */
uint32_t itm_c_close(struct itm_c_words *words, struct itm_c_cells *out);

/* Begins a block, or one within the open one. ITM_C_ENTERED, ITM_C_ENTERED_AGAIN (an outermost one with `again`), or BUSY,
 * CONFLICT (one that goes irrevocable), FULL, MEMORY, REFUSED. */
uint32_t itm_c_begin(struct itm_c_thread *thread, bool no_abort, bool no_irrevocable, bool goes_irrevocable, bool again);

/* Ends the innermost block; with the outermost one the transaction commits. ITM_C_DONE (an inner one), READ_ONLY,
 * COMMITTED, CONFLICT, FULL, REFUSED. Never MEMORY. */
uint32_t itm_c_commit(struct itm_c_thread *thread);

/* Cancels the innermost block, or with `outer` all: its writes are gone. ITM_C_CANCELLED, or REFUSED. Never MEMORY.
 * Shared memory alone is put back. */
uint32_t itm_c_cancel(struct itm_c_thread *thread, bool outer);

/* The transaction becomes irrevocable: it will commit, no other writer does before it, and it can't be cancelled.
 * ITM_C_DONE, CONFLICT, FULL, MEMORY, REFUSED. */
uint32_t itm_c_irrevocable(struct itm_c_thread *thread);

/* Reads 8, 4, 2 or 1 bytes, on any boundary. ITM_C_DONE, CONFLICT, MEMORY, REFUSED.
 * Quick is a read of 8 bytes on a boundary of 8: a narrow value that lies in one word is better cut from it. */
struct itm_c_number itm_c_read8(struct itm_c_thread *thread, uint64_t at);
struct itm_c_number itm_c_read4(struct itm_c_thread *thread, uint64_t at);
struct itm_c_number itm_c_read2(struct itm_c_thread *thread, uint64_t at);
struct itm_c_number itm_c_read1(struct itm_c_thread *thread, uint64_t at);

/* Writes 8, 4, 2 or 1 bytes, on any boundary, and no others. ITM_C_DONE, MEMORY, REFUSED; CONFLICT and FULL of none.
 * What is written stands in the cells once the transaction has committed. */
uint32_t itm_c_write8(struct itm_c_thread *thread, uint64_t at, uint64_t value);
uint32_t itm_c_write4(struct itm_c_thread *thread, uint64_t at, uint32_t value);
uint32_t itm_c_write2(struct itm_c_thread *thread, uint64_t at, uint16_t value);
uint32_t itm_c_write1(struct itm_c_thread *thread, uint64_t at, uint8_t value);

/* Copies so many bytes of the words to others, all as before the call; where it does not move, the two ranges have no byte
 * in common. ITM_C_DONE, CONFLICT, MEMORY, REFUSED.
 * Reads and writes of 8 bytes do the same in fewer instructions. */
uint32_t itm_c_copy(struct itm_c_thread *thread, uint64_t to, uint64_t from, uint64_t size, bool moves);

/* Sets so many bytes of the words to the low 8 bits of `byte`. ITM_C_DONE, CONFLICT, MEMORY, REFUSED.
 * The bytes are not read. Writes of 8 bytes do the same in fewer instructions. */
uint32_t itm_c_fill(struct itm_c_thread *thread, uint64_t to, uint64_t byte, uint64_t size);

#endif
