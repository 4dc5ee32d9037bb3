/* A gene is put together from its segments, in the manner of STAMP's genome. Threads put segments, of which many come
 * more than once, into a set; then they hang those behind each other that have the most letters in common. The gene is
 * made so that its parts are not alike, and has to come out again. */
#include "../program.h"

enum { LENGTH = 1500, SEGMENT = 24, STEP = 6, LEAST = SEGMENT - STEP, MOST = 2 * LENGTH, BUCKETS = 512 };
struct segment {
    struct segment *in_bucket;     /* the next in the set */
    struct segment *next, *before; /* in the gene */
    struct segment *in_ends;       /* the next in the table by the end */
    int overlap;
    char text[SEGMENT];
};
static char gene[LENGTH + 1];
static int place[MOST], place_count; /* the segments that are read */
static struct {
    struct segment *set[BUCKETS], *ends[BUCKETS];
    struct segment *all[LENGTH];
    long count, taken, linked;
} shared;
static pthread_barrier_t phase_over;

SAFE static unsigned hash_of(const char *text, int size) {
    unsigned hash = 5381;
    for (int i = 0; i < size; i++) hash = 33 * hash + text[i];
    return hash % BUCKETS;
}

SAFE static bool is_same(const char *a, const char *b, int size) {
    for (int i = 0; i < size; i++)
        if (a[i] != b[i]) return false;
    return true;
}

SAFE static void add_segment(const char *text) {
    struct segment **link = &shared.set[hash_of(text, SEGMENT)];
    for (; *link; link = &(*link)->in_bucket)
        if (is_same((*link)->text, text, SEGMENT)) return;
    struct segment *segment = calloc(1, sizeof *segment);
    memcpy(segment->text, text, SEGMENT);
    *link = segment;
    shared.all[shared.count++] = segment;
}

static long take(long limit, long step) {
    long first;
    __transaction_atomic {
        first = shared.taken;
        if (first < limit) shared.taken = first + step;
    }
    return first;
}

static void put_into_set(void) {
    for (long first; (first = take(place_count, 8)) < place_count;)
        for (long i = first; i < first + 8 && i < place_count; i++) {
            const char *text = gene + place[i];
            __transaction_atomic { add_segment(text); }
        }
}

/* All that nothing hangs behind yet, by their last letters. */
static void table_of_ends(int overlap) {
    memset(shared.ends, 0, sizeof shared.ends);
    for (long i = 0; i < shared.count; i++) {
        struct segment *segment = shared.all[i];
        if (segment->next) continue;
        struct segment **bucket = &shared.ends[hash_of(segment->text + SEGMENT - overlap, overlap)];
        segment->in_ends = *bucket;
        *bucket = segment;
    }
    shared.taken = 0;
}

static bool hang_in(struct segment *segment, int overlap) {
    bool done = false;
    __transaction_atomic {
        if (!segment->before) {
            struct segment *at = shared.ends[hash_of(segment->text, overlap)];
            while (at && (at == segment || at->next || !is_same(at->text + SEGMENT - overlap, segment->text, overlap)))
                at = at->in_ends;
            if (at) {
                at->next = segment;
                let_others_run();
                segment->before = at;
                at->overlap = overlap;
                shared.linked++;
                done = true;
            }
        }
    }
    return done;
}

static void link_all(int overlap) {
    for (long i; (i = take(shared.count, 1)) < shared.count;) hang_in(shared.all[i], overlap);
}

void work(int thread, unsigned long *seed) {
    (void)seed;
    for (int turn = 0; turn < rounds / 1000 + 1; turn++) {
        pthread_barrier_wait(&phase_over);
        if (thread == 0) memset(&shared, 0, sizeof shared);
        pthread_barrier_wait(&phase_over);
        put_into_set();
        for (int overlap = SEGMENT - 1; overlap >= LEAST; overlap--) {
            pthread_barrier_wait(&phase_over);
            if (thread == 0) table_of_ends(overlap);
            pthread_barrier_wait(&phase_over);
            link_all(overlap);
        }
    }
}

static bool has_twins(void) {
    for (int i = 0; i + LEAST <= LENGTH; i++)
        for (int j = i + 1; j + LEAST <= LENGTH; j++)
            if (is_same(gene + i, gene + j, LEAST)) return true;
    return false;
}

void before(void) {
    unsigned long seed = 2718281828;
    do
        for (int i = 0; i < LENGTH; i++) gene[i] = "acgt"[pick(&seed, 4)];
    while (has_twins());
    for (int at = 0; at < LENGTH - SEGMENT; at += 1 + pick(&seed, STEP)) place[place_count++] = at;
    place[place_count++] = LENGTH - SEGMENT;
    for (int first = place_count; place_count < first + LENGTH / 4;) place[place_count++] = place[pick(&seed, first)];
    for (int i = 1; i < place_count - 1; i++) {
        int other = 1 + pick(&seed, place_count - 1), was = place[i];
        place[i] = place[other];
        place[other] = was;
    }
    pthread_barrier_init(&phase_over, 0, threads);
}

bool after(void) {
    char found[LENGTH + SEGMENT];
    int size = SEGMENT;
    struct segment *at = shared.count ? shared.all[0] : 0;
    if (!at) return false;
    for (long steps = 0; at->before && steps < shared.count; steps++) at = at->before;
    memcpy(found, at->text, SEGMENT);
    for (; at->next && size <= LENGTH; at = at->next) {
        memcpy(found + size, at->next->text + at->overlap, SEGMENT - at->overlap);
        size += SEGMENT - at->overlap;
    }
    return shared.linked == shared.count - 1 && size == LENGTH && !memcmp(found, gene, LENGTH);
}
