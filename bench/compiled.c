/* BENCH WORKLOAD SIZE THREADS MILLISECONDS: prints how many transactions committed in a second.
 *
 *   counter   adds 1 to one word
 *   transfer  moves 1 between two of SIZE words, drawn at random
 *   reads     adds up SIZE words in a row, from a random one on
 *   writes    writes SIZE words in a row
 *
 * A word is a uint64_t, or what WORD is defined as. The words are looked at in the end: a count that is lost ends it with
 * status 2. */
#include <pthread.h>
#include <stdint.h>
#include <stdio.h>
#include <stdlib.h>
#include <string.h>
#include <time.h>
#include <unistd.h>

#ifndef WORD
#define WORD uint64_t
#endif

enum { WORDS = 8192, MOST_THREADS = 64 };
static WORD word[WORDS] __attribute__((aligned(64)));
static volatile int is_over;
static unsigned size;

struct thread {
    pthread_t id;
    uint64_t seed, commits, sum;
} __attribute__((aligned(128)));

static unsigned draw(struct thread *t, unsigned below) {
    t->seed = t->seed * 6364136223846793005u + 1442695040888963407u;
    return (t->seed >> 33) % below;
}

static void counter(struct thread *t) {
    (void)t;
    __transaction_atomic { word[0]++; }
}

static void transfer(struct thread *t) {
    unsigned from = draw(t, size), to = draw(t, size);
    __transaction_atomic {
        word[from]--;
        word[to]++;
    }
}

static void reads(struct thread *t) {
    unsigned count = size, from = draw(t, WORDS - count + 1);
    uint64_t sum = 0;
    __transaction_atomic {
        sum = 0;
        for (unsigned i = 0; i < count; i++) sum += word[from + i];
    }
    t->sum += sum;
}

static void writes(struct thread *t) {
    unsigned count = size;
    uint64_t value = t->commits;
    __transaction_atomic {
        for (unsigned i = 0; i < count; i++) word[i] = value;
    }
}

static const struct {
    const char *name;
    void (*run)(struct thread *);
} loads[] = {{"counter", counter}, {"transfer", transfer}, {"reads", reads}, {"writes", writes}};
static void (*load)(struct thread *);

static void *work(void *p) {
    struct thread *t = p;
    for (; !is_over; t->commits++) load(t);
    return 0;
}

static double now(void) {
    struct timespec t;
    clock_gettime(CLOCK_MONOTONIC, &t);
    return t.tv_sec + t.tv_nsec * 1e-9;
}

int main(int count, char **words) {
    static struct thread thread[MOST_THREADS];
    if (count != 5) return 1;
    for (size_t i = 0; i < sizeof loads / sizeof *loads; i++)
        if (!strcmp(words[1], loads[i].name)) load = loads[i].run;
    size = atoi(words[2]);
    int threads = atoi(words[3]);
    if (!load || !size || size > WORDS || threads < 1 || threads > MOST_THREADS) return 1;

    double began = now();
    for (int i = 0; i < threads; i++) {
        thread[i].seed = i;
        pthread_create(&thread[i].id, 0, work, &thread[i]);
    }
    usleep(atoi(words[4]) * 1000);
    is_over = 1;
    uint64_t commits = 0, sum = 0;
    for (int i = 0; i < threads; i++) {
        pthread_join(thread[i].id, 0);
        commits += thread[i].commits;
    }
    double took = now() - began;

    for (int i = 0; i < WORDS; i++) sum += word[i];
    if ((load == counter && (WORD)sum != (WORD)commits) || (load == transfer && (WORD)sum)) return 2;
    printf("%.0f\n", commits / took);
    return 0;
}
