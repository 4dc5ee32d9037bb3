/* A queue between threads: each puts items in at its end and takes some out of its front, and finds it empty at times.
 * Each item comes out once, and who takes two of one thread's takes them in the order in which they were put in. */
#include "../program.h"

struct item {
    struct item *next;
    int from;
    long number;
};
static struct {
    struct item *first, *last;
    long size, most;
} queue;
static long put_in[MOST_THREADS], taken[MOST_THREADS];
static long last_of[MOST_THREADS][MOST_THREADS]; /* by who took it and who put it in */
static pthread_barrier_t all_put;

SAFE static void put(struct item *item) {
    item->next = 0;
    if (queue.last) queue.last->next = item;
    else queue.first = item;
    queue.last = item;
    if (++queue.size > queue.most) queue.most = queue.size;
}

SAFE static struct item *take(void) {
    struct item *item = queue.first;
    if (!item) return 0;
    queue.first = item->next;
    if (!queue.first) queue.last = 0;
    queue.size--;
    return item;
}

static void put_one(int thread) {
    struct item *item = malloc(sizeof *item);
    item->from = thread, item->number = ++put_in[thread];
    __transaction_atomic { put(item); }
}

static bool take_one(int thread) {
    struct item *item;
    __transaction_atomic { item = take(); }
    if (!item) return false;
    check(item->number > last_of[thread][item->from], "the order of a thread's items");
    last_of[thread][item->from] = item->number;
    taken[thread]++;
    free(item);
    return true;
}

void before(void) {
    pthread_barrier_init(&all_put, 0, threads);
}

void work(int thread, unsigned long *seed) {
    for (int i = 0; i < rounds; i++) {
        if (pick(seed, 2)) put_one(thread);
        else take_one(thread);
    }
    pthread_barrier_wait(&all_put);
    while (take_one(thread)) {}
}

bool after(void) {
    long in = 0, out = 0;
    for (int i = 0; i < threads; i++) in += put_in[i], out += taken[i];
    return in == out && !queue.first && !queue.last && !queue.size && queue.most <= in;
}
