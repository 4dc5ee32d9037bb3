/* Clusters of points, in the manner of STAMP's kmeans: each thread finds the nearest centre of its points and adds them,
 * in a transaction, to the sums of the next centre; between two rounds plain code makes the new centres. All sums are of
 * whole numbers, so whatever the order, the centres are those that one thread finds with plain code. */
#include "../program.h"

enum { DIMENSIONS = 4, CLUSTERS = 7, POINTS = 240, CHUNK = 6 };
struct centre {
    long count, sum[DIMENSIONS];
};
struct model {
    long centre[CLUSTERS][DIMENSIONS];
    struct centre next[CLUSTERS];
    int member[POINTS];
    long moved, taken; /* points that changed their cluster; points that have been given out */
};
static int point[POINTS][DIMENSIONS];
static struct model shared, alone;
static int last_turn;
static pthread_barrier_t turn_begins, turn_ends;

static int nearest(const struct model *m, const int *p) {
    int best = 0;
    long least = -1;
    for (int c = 0; c < CLUSTERS; c++) {
        long distance = 0;
        for (int d = 0; d < DIMENSIONS; d++) distance += (p[d] - m->centre[c][d]) * (p[d] - m->centre[c][d]);
        if (least < 0 || distance < least) least = distance, best = c;
    }
    return best;
}

SAFE static void add_point(struct model *m, int p, int cluster) {
    struct centre *next = &m->next[cluster];
    next->count++;
    for (int d = 0; d < DIMENSIONS; d++) next->sum[d] += point[p][d];
    if (m->member[p] != cluster) m->moved++;
    m->member[p] = cluster;
}

static void make_centres(struct model *m) {
    for (int c = 0; c < CLUSTERS; c++)
        if (m->next[c].count)
            for (int d = 0; d < DIMENSIONS; d++) m->centre[c][d] = m->next[c].sum[d] / m->next[c].count;
    memset(m->next, 0, sizeof m->next);
    m->taken = 0;
}

/* Where the clusters have come to rest, other centres begin. */
static void disturb(struct model *m, long turn) {
    for (int c = 0; c < CLUSTERS; c++)
        for (int d = 0; d < DIMENSIONS; d++) m->centre[c][d] = (turn * 37 + c * 101 + d * 53) % 1000;
}

static int take_chunk(void) {
    long first;
    __transaction_atomic {
        first = shared.taken;
        shared.taken = first + CHUNK;
    }
    return first < POINTS ? (int)first : -1;
}

static void find_members(void) {
    for (int first; (first = take_chunk()) >= 0;)
        for (int p = first; p < first + CHUNK; p++) {
            int cluster = nearest(&shared, point[p]);
            __transaction_atomic { add_point(&shared, p, cluster); }
        }
}

static void end_turn(struct model *m, long turn, long *moved_before) {
    make_centres(m);
    if (m->moved == *moved_before) disturb(m, turn);
    *moved_before = m->moved;
}

void work(int thread, unsigned long *seed) {
    static long moved_before;
    (void)seed;
    for (long turn = 0; turn < last_turn; turn++) {
        pthread_barrier_wait(&turn_begins);
        find_members();
        pthread_barrier_wait(&turn_ends);
        if (thread == 0) end_turn(&shared, turn, &moved_before);
    }
}

static void begin(struct model *m) {
    memset(m, 0, sizeof *m);
    disturb(m, 1);
}

void before(void) {
    unsigned long seed = 12345;
    for (int p = 0; p < POINTS; p++)
        for (int d = 0; d < DIMENSIONS; d++) point[p][d] = pick(&seed, 1000);
    last_turn = rounds / 20 + 4;
    begin(&shared);
    begin(&alone);
    pthread_barrier_init(&turn_begins, 0, threads);
    pthread_barrier_init(&turn_ends, 0, threads);
}

bool after(void) {
    long moved_before = 0;
    for (long turn = 0; turn < last_turn; turn++) {
        for (int p = 0; p < POINTS; p++) add_point(&alone, p, nearest(&alone, point[p]));
        end_turn(&alone, turn, &moved_before);
    }
    check(shared.moved == alone.moved && alone.moved > 0, "how many moves there were");
    check(!memcmp(shared.centre, alone.centre, sizeof alone.centre), "the centres");
    return !memcmp(shared.member, alone.member, sizeof alone.member);
}
