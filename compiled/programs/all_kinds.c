/* Random trees of blocks, some of them cancelled, over all kinds of memory at once: the program's data, its heap, pages of
 * its own, the thread's stack, thread-local storage, what a block has just allocated. Each thread has rows of its own, on
 * which plain code takes the same steps, with copies in place of blocks; one counter that all add to makes conflicts. */
#define _GNU_SOURCE
#include <pthread.h>
#include <stdbool.h>
#include <stdint.h>
#include <stdio.h>
#include <stdlib.h>
#include <string.h>
#include <sys/mman.h>

enum { WORDS = 16, KINDS = 5, MOST_THREADS = 64, DEEPEST = 5 };
#define SAFE __attribute__((transaction_safe, noinline))

struct rows {
    long *row[KINDS];
    bool has_foreign;
};
struct model {
    long row[KINDS][WORDS];
};

static long data[MOST_THREADS][WORDS], counter;
static __thread long local[WORDS];
static int threads = 1, rounds = 400;
static bool is_wrong;

SAFE static uint32_t draw(uint64_t *seed, uint32_t below) {
    *seed = *seed * 6364136223846793005u + 1442695040888963407u;
    return (uint32_t)(*seed >> 33) % below;
}

/* One access: its kind, width and place by the seed. */
SAFE static long touch(long *row, uint64_t *seed) {
    uint32_t at = draw(seed, WORDS - 1), by = draw(seed, 1000);
    unsigned char *bytes = (unsigned char *)row + draw(seed, 8 * WORDS - 8);
    switch (draw(seed, 6)) {
    case 0: return row[at];
    case 1: return row[at] = by;
    case 2: return row[at] += by;
    case 3: return *bytes = by;
    case 4: memcpy(&row[at], &row[WORDS - 1 - at], 8); return row[at];
    default: memset(bytes, by, 7); return bytes[3];
    }
}

SAFE static long fresh(uint64_t *seed) {
    long *some = malloc(WORDS * sizeof *some), sum = 0;
    for (int i = 0; i < WORDS; i++) some[i] = i;
    for (int i = 0; i < 4; i++) sum += touch(some, seed);
    free(some);
    return sum;
}

SAFE static uint32_t kind_at(const struct rows *r, uint64_t *seed) {
    uint32_t kind = draw(seed, KINDS);
    return kind == 2 && !r->has_foreign ? 0 : kind;
}

/* `*sum` is what all of it answers, and is taken back with a block. */
SAFE static void tree(const struct rows *r, uint64_t *seed, int depth, long *sum) {
    for (uint32_t steps = 1 + draw(seed, 5); steps; steps--) {
        uint64_t own = *seed + steps;
        draw(seed, 2);
        if (depth == DEEPEST || draw(&own, 3)) {
            *sum = *sum * 31 + (draw(&own, 5) ? touch(r->row[kind_at(r, &own)], &own) : fresh(&own));
        } else if (draw(&own, 2)) {
            bool goes = draw(&own, 2);
            __transaction_atomic {
                tree(r, &own, depth + 1, sum);
                if (!goes) __transaction_cancel;
            }
            *sum += 7;
        } else {
            __transaction_atomic { tree(r, &own, depth + 1, sum); }
        }
    }
}

static void plain(const struct rows *r, uint64_t *seed, int depth, long *sum) {
    for (uint32_t steps = 1 + draw(seed, 5); steps; steps--) {
        uint64_t own = *seed + steps;
        draw(seed, 2);
        if (depth == DEEPEST || draw(&own, 3)) {
            *sum = *sum * 31 + (draw(&own, 5) ? touch(r->row[kind_at(r, &own)], &own) : fresh(&own));
        } else if (draw(&own, 2)) {
            bool goes = draw(&own, 2);
            struct model kept;
            long had = *sum;
            for (int k = 0; k < KINDS; k++) memcpy(kept.row[k], r->row[k], sizeof kept.row[k]);
            plain(r, &own, depth + 1, sum);
            if (!goes) {
                for (int k = 0; k < KINDS; k++) memcpy(r->row[k], kept.row[k], sizeof kept.row[k]);
                *sum = had;
            }
            *sum += 7;
        } else {
            plain(r, &own, depth + 1, sum);
        }
    }
}

static bool agree(const struct rows *r, const struct model *m, long sum, long due) {
    for (int k = 0; k < KINDS; k++)
        if (memcmp(r->row[k], m->row[k], sizeof m->row[k])) return false;
    return sum == due;
}

static void *work(void *p) {
    long number = (long)p, stack[WORDS] = {0}, answer = 0, due = 0;
    long *pages = mmap(0, 4096, PROT_READ | PROT_WRITE, MAP_PRIVATE | MAP_ANONYMOUS, -1, 0);
    struct rows rows = {{data[number], calloc(WORDS, sizeof(long)), pages, stack, local}, false};
    struct model m = {0};
    struct rows modelled = {{m.row[0], m.row[1], m.row[2], m.row[3], m.row[4]}, false};
    for (int i = 0; i < rounds; i++) {
        uint64_t seed = number * 1000003 + i, again = seed;
        rows.has_foreign = modelled.has_foreign = i % 4 == 0;
        __transaction_atomic {
            counter++;
            tree(&rows, &seed, 0, &answer);
        }
        plain(&modelled, &again, 0, &due);
        if (!agree(&rows, &m, answer, due)) {
            printf("thread %ld, round %d\n", number, i);
            is_wrong = true;
            break;
        }
    }
    free(rows.row[1]);
    return 0;
}

int main(int count, char **words) {
    pthread_t t[MOST_THREADS];
    if (count > 1) threads = atoi(words[1]);
    if (count > 2) rounds = atoi(words[2]);
    for (long i = 0; i < threads; i++) pthread_create(&t[i], 0, work, (void *)i);
    for (int i = 0; i < threads; i++) pthread_join(t[i], 0);
    is_wrong |= counter != (long)threads * rounds;
    printf("%s\n", is_wrong ? "blocks and plain code do not agree" : "right");
    return is_wrong;
}
