/* Fragments of many flows come out of one queue in disorder, are put together by flow, and whole flows are searched for
 * the marks of an attack: in the manner of STAMP's intruder. Which flows hold one is known beforehand; each flow comes out
 * once, whole. */
#include "../program.h"

enum { FLOWS = 1024, PARTS = 8, SIZE = 16, BUCKETS = 64 };
struct fragment {
    struct fragment *next;
    int flow, part, parts, size;
    char bytes[SIZE];
};
struct assembly {
    struct assembly *next;
    struct fragment *first; /* by part */
    int flow, there, parts;
};
static struct fragment **queue; /* the fragments of all flows, mixed */
static long queued;
static struct {
    long taken;
    struct assembly *bucket[BUCKETS];
    struct assembly *whole; /* a stack of flows that are complete */
    long wholes, attacks;
} shared;
static char text[FLOWS][PARTS * SIZE + 1];
static bool is_attack[FLOWS];
static unsigned char seen[FLOWS];
static int flows;

static struct fragment *take_fragment(void) {
    struct fragment *fragment = 0;
    __transaction_atomic {
        if (shared.taken < queued) fragment = queue[shared.taken++];
    }
    return fragment;
}

SAFE static struct assembly *assembly_of(const struct fragment *fragment) {
    struct assembly **link = &shared.bucket[fragment->flow % BUCKETS];
    while (*link && (*link)->flow != fragment->flow) link = &(*link)->next;
    if (!*link) {
        struct assembly *made = malloc(sizeof *made);
        *made = (struct assembly){.flow = fragment->flow, .parts = fragment->parts};
        *link = made;
    }
    return *link;
}

SAFE static void take_out(struct assembly *assembly) {
    struct assembly **link = &shared.bucket[assembly->flow % BUCKETS];
    while (*link != assembly) link = &(*link)->next;
    *link = assembly->next;
}

static void put_in(struct fragment *fragment) {
    __transaction_atomic {
        struct assembly *assembly = assembly_of(fragment);
        struct fragment **link = &assembly->first;
        while (*link && (*link)->part < fragment->part) link = &(*link)->next;
        fragment->next = *link;
        let_others_run();
        *link = fragment;
        if (++assembly->there == assembly->parts) {
            take_out(assembly);
            assembly->next = shared.whole;
            shared.whole = assembly;
        }
    }
}

static struct assembly *take_whole(void) {
    struct assembly *assembly;
    __transaction_atomic {
        assembly = shared.whole;
        if (assembly) {
            shared.whole = assembly->next;
            shared.wholes++;
        }
    }
    return assembly;
}

/* The flow is this thread's alone by now: plain code looks through it, and frees it. */
static bool search(struct assembly *assembly) {
    char found[PARTS * SIZE + 1];
    int size = 0;
    for (struct fragment *at = assembly->first, *next; at; at = next) {
        next = at->next;
        memcpy(found + size, at->bytes, at->size);
        size += at->size;
        free(at);
    }
    found[size] = 0;
    check(!strcmp(found, text[assembly->flow]), "a flow");
    check(!seen[assembly->flow]++, "a flow came out twice");
    free(assembly);
    return strstr(found, "attack");
}

void work(int thread, unsigned long *seed) {
    (void)thread, (void)seed;
    for (struct fragment *fragment; (fragment = take_fragment());) {
        put_in(fragment);
        struct assembly *whole = take_whole();
        if (whole && search(whole))
            __transaction_atomic { shared.attacks++; }
    }
    for (struct assembly *whole; (whole = take_whole());)
        if (search(whole))
            __transaction_atomic { shared.attacks++; }
}

static void cut_up(int flow, unsigned long *seed) {
    int size = strlen(text[flow]), at = 0, cuts[PARTS * SIZE], parts = 0;
    while (at < size) {
        cuts[parts++] = at;
        at += 1 + pick(seed, SIZE);
    }
    for (int i = 0; i < parts; i++) {
        struct fragment *fragment = calloc(1, sizeof *fragment);
        fragment->flow = flow, fragment->part = i, fragment->parts = parts;
        fragment->size = (i + 1 < parts ? cuts[i + 1] : size) - cuts[i];
        memcpy(fragment->bytes, text[flow] + cuts[i], fragment->size);
        queue[queued++] = fragment;
    }
}

void before(void) {
    unsigned long seed = 31415926;
    flows = rounds < FLOWS ? rounds : FLOWS;
    queue = malloc(sizeof *queue * flows * PARTS * SIZE);
    for (int flow = 0; flow < flows; flow++) {
        int size = 8 + pick(&seed, PARTS * SIZE - 8);
        for (int i = 0; i < size; i++) text[flow][i] = 'a' + pick(&seed, 20);
        is_attack[flow] = pick(&seed, 3) == 0;
        char *mark = strstr(text[flow], "attack");
        if (mark) *mark = 'b';
        if (is_attack[flow]) memcpy(text[flow] + pick(&seed, size - 6), "attack", 6);
        cut_up(flow, &seed);
    }
    for (long i = queued - 1; i > 0; i--) {
        long other = pick(&seed, i + 1);
        struct fragment *was = queue[i];
        queue[i] = queue[other];
        queue[other] = was;
    }
}

bool after(void) {
    long attacks = 0;
    for (int flow = 0; flow < flows; flow++) attacks += is_attack[flow], check(seen[flow], "a flow did not come out");
    for (int i = 0; i < BUCKETS; i++) check(!shared.bucket[i], "a flow is left over");
    return shared.attacks == attacks && shared.wholes == flows && !shared.whole;
}
