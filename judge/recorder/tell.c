/* The recording, as a text. Its calls are lines of a history (docs/HISTORIES.md) on the words that they name, side by
 * side by address. What a history has not:
 *
 *     itm-recording 1
 *     program ADDRESS                             where it was loaded
 *     word ADDRESS OPENING FINAL KEPT             a word; KEPT is 0 where it was freed: its final bytes tell nothing
 *     block ADDRESS SIZE CALLER                   memory that the program asked for, if a word of it is told
 *     attempt THREAD TRY LOW HIGH OUTCOME PROPS   an attempt with the range of its position
 *     call NAME DEST SOURCE SIZE = HEX            a copy, with its bytes
 *     unfinished N                                in place of the final line: so many attempts have not ended
 *
 * Attempts stand in the order in which they ended, and then those that have not: `unfinished` ones, and `committing`
 * ones, whose commit was called and has not returned, so that it may be done or not. An irrevocable one is left out. */
#include "tell.h"
#include <link.h>
#include <signal.h>
#include <stdlib.h>
#include <unistd.h>

FILE *out;

void tell_hex(const void *bytes, size_t size) {
    for (const byte *p = bytes; size; size--, p++) {
        putc_unlocked("0123456789abcdef"[*p >> 4], out);
        putc_unlocked("0123456789abcdef"[*p & 15], out);
    }
}

/* A moment at which no commit returns, with what each thread had done by then. Commits that are under way are given
 * some time to return; no attempt begins any more. How many have not ended. */
static int stop_tries(void) {
    int open = 1;
    stopping = true;
    for (int turn = 0; open && turn < 100; turn++) {
        if (turn) usleep(1000);
        open = 0;
        for (int i = 0; i < thread_count; i++) open += threads[i] && threads[i]->depth;
    }
    for (uint64_t now = ~commits_so_far(); now != commits_so_far();) {
        now = commits_so_far();
        for (int i = 0; i < thread_count; i++)
            if (threads[i]) threads[i]->told = threads[i]->end;
    }
    return open;
}

static int by_end(const void *x, const void *y) {
    const struct try *a = x, *b = y;
    if (a->key != b->key) return a->key < b->key ? -1 : 1;
    if (a->thread != b->thread) return a->thread - b->thread;
    return a->from < b->from ? -1 : a->from > b->from;
}

static struct try ended(const struct event *from, const struct event *end, int thread) {
    uint64_t key = 2ull * end->size + !strcmp(end->name, "committed");
    return (struct try){from, end, thread, key, end->a, end->b, end->name};
}

/* Up to where the calls of an attempt are told that has not ended: its outermost block is open there still, also where
 * its thread was stopped just after it had noted the last call. */
static const struct event *open_end(const struct event *from, const struct event *end) {
    int depth = 1;
    for (const struct event *e = event_after(from); e != end; e = event_after(e)) {
        if (e->kind == BEGIN) depth++;
        if (e->kind == COMMIT) depth--;
        if (e->kind == ABORT) depth = e->a & OUTER_ABORT ? 0 : depth - 1;
        if (!depth) return e;
    }
    return end;
}

static struct try unfinished(const struct event *from, const struct thread *t, int thread) {
    const struct event *end = open_end(from, (const struct event *)t->told);
    struct try try = {from, end, thread, UINT64_MAX, t->low, commits_called(), "unfinished"};
    if (!t->committing) return try;
    try.low = t->position;
    if (inside) try.high = t->position;
    try.outcome = "committing";
    return try;
}

/* A thread's attempts, or just their number. */
static size_t tries_of(int number, struct try *tries) {
    const struct thread *t = threads[number];
    const struct event *from = 0;
    size_t count = 0;
    if (!t) return 0;
    for (const struct event *e = (void *)t->start; (const byte *)e < t->told; e = event_after(e)) {
        if (e->kind == TRY) from = e;
        if (e->kind != END) continue;
        if (tries) tries[count] = ended(from, e, number);
        count++, from = 0;
    }
    if (!from || t->irrevocable) return count;
    if (tries) tries[count] = unfinished(from, t, number);
    return count + 1;
}

static void tell_words_and_tries(void) {
    size_t count = 0;
    for (int i = 0; i < thread_count; i++) count += tries_of(i, 0);
    struct try *tries = reserve((count + 1) * sizeof *tries), *end = tries;
    for (int i = 0; i < thread_count; i++) end += tries_of(i, end);
    qsort(tries, count, sizeof *tries, by_end);
    tell_words(tries, count);
    for (struct try *try = tries; try < tries + count; try++) tell_try(try);
}

static int program_base(struct dl_phdr_info *object, size_t size, void *base) {
    (void)size;
    *(unsigned long *)base = object->dlpi_addr;
    return 1;
}

void write_recording(void) {
    const char *name = getenv("RECORD_TO");
    sigset_t all;
    if (!name) return;
    sigfillset(&all);
    pthread_sigmask(SIG_BLOCK, &all, 0); /* what stops the program now waits, and this goes on */
    int open = stop_tries();
    unsigned long elsewhere = 0, base = 0;
    for (int i = 0; i < thread_count; i++) elsewhere += threads[i] ? threads[i]->elsewhere : 0;
    dl_iterate_phdr(program_base, &base);
    out = fopen(name, "w");
    if (!out) fail("%s cannot be written", name);
    setvbuf(out, 0, _IOFBF, 1 << 20);
    fprintf(out, "itm-recording 1\nprogram %lx\n", base);
    tell_words_and_tries();
    fprintf(out, "unfinished %d\n", open);
    if (fclose(out)) fail("%s cannot be written", name);
    if (elsewhere) fprintf(stderr, "recorder: %lu accesses to other memory are left out\n", elsewhere);
}
