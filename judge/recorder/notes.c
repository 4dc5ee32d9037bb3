/* What a thread has done, in the order in which it did it: events in a buffer of its own. */
#include "recorder.h"
#include <pthread.h>
#include <sys/mman.h>

/* for a thread's events */
static const size_t buffer_size = (size_t)256 << 20;

/* A call with more bytes counts as several, since each takes time to judge. */
enum { BYTES_A_CALL = 128 };

uint64_t most_calls;
static _Atomic uint64_t shared_out; /* of the calls that may be noted */

struct thread *threads[THREADS];
atomic_int thread_count;
__thread struct thread *self;

struct thread *new_thread(void) {
    static pthread_once_t once = PTHREAD_ONCE_INIT;
    pthread_once(&once, set_up);
    int number = atomic_fetch_add(&thread_count, 1);
    if (number >= THREADS) fail("more than %d threads", THREADS);
    size_t head = (sizeof(struct thread) + 63) & -64;
    struct thread *t = reserve(head + buffer_size);
    madvise(t, head + buffer_size, MADV_HUGEPAGE);
    t->start = t->end = (byte *)t + head;
    threads[number] = t;
    return self = t;
}

static size_t event_size(size_t data) {
    return (sizeof(struct event) + data + 7) & -8;
}

/* A thread takes so many at once that threads seldom meet here, and few are left over. While the recording is written,
 * attempts under way may end. */
__attribute__((noinline, cold)) static void take_share(struct thread *t, uint64_t calls) {
    uint64_t share = most_calls / THREADS + 1;
    while (t->share < calls) {
        if (!stopping && atomic_fetch_add(&shared_out, share) + share > most_calls)
            stop_full("CALLS: as many calls are recorded as it allows");
        t->share += share;
    }
}

struct event *note(struct thread *t, enum kind kind, const char *name, uint64_t a, uint64_t b, size_t size,
                   const void *data) {
    struct event *event = (struct event *)t->end;
    size_t total = event_size(data ? size : 0);
    uint64_t calls = kind == END ? 1 : 1 + size / BYTES_A_CALL;
    if (__builtin_expect(t->share < calls, 0)) take_share(t, calls);
    if (total > buffer_size - (t->end - t->start)) stop_full("a thread has made too many calls");
    t->share -= calls;
    *event = (struct event){name, a, b, size, kind};
    if (data) memcpy(event->data, data, size);
    t->end += total;
    return event;
}

const struct event *event_after(const struct event *event) {
    bool has_data = (event->kind >= READ && event->kind <= COPY) || event->kind == LOG;
    return (const struct event *)((const byte *)event + event_size(has_data ? event->size : 0));
}

/* An access that no single entry of the history stands for. */
void note_bytes(struct thread *t, enum kind kind, size_t place, const byte *from, size_t size) {
    static const char *const names[4][4] = {{"_ITM_RU1", "_ITM_RU2", "_ITM_RU4", "_ITM_RU8"},
                                            {"_ITM_WU1", "_ITM_WU2", "_ITM_WU4", "_ITM_WU8"},
                                            {"ld1", "ld2", "ld4", "ld8"},
                                            {"st1", "st2", "st4", "st8"}};
    for (size_t part; size; place += part, from += part, size -= part) {
        int log = size >= 8 ? 3 : size >= 4 ? 2 : size >= 2 ? 1 : 0;
        part = 1 << log;
        note(t, kind, names[kind - READ][log], place, 0, part, from);
    }
}
