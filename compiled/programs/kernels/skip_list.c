/* An ordered set as a skip list ("Skip Lists: A Probabilistic Alternative to Balanced Trees", Pugh, 1990): threads add,
 * take out and look for numbers. On each level the numbers rise, each stands on the level below as well, and there are
 * those that were added and not taken out. */
#include "../program.h"

enum { LEVELS = 8, NUMBERS = 512 };
struct node {
    int number, levels;
    struct node *next[LEVELS];
};
static struct node head = {-1, LEVELS, {0}};
static long count[MOST_THREADS][NUMBERS]; /* how often each thread has added a number, less how often it took it out */

/* The last node before the number, on each level; and the node behind it on the lowest one. */
SAFE static struct node *find(int number, struct node **before) {
    struct node *at = &head;
    for (int level = LEVELS - 1; level >= 0; level--) {
        while (at->next[level] && at->next[level]->number < number) at = at->next[level];
        before[level] = at;
    }
    return at->next[0];
}

SAFE static bool has(int number) {
    struct node *before[LEVELS], *at = find(number, before);
    return at && at->number == number;
}

SAFE static bool add(int number, int levels) {
    struct node *before[LEVELS], *at = find(number, before);
    if (at && at->number == number) return false;
    struct node *new = calloc(1, sizeof *new);
    new->number = number, new->levels = levels;
    for (int i = 0; i < levels; i++) {
        new->next[i] = before[i]->next[i];
        before[i]->next[i] = new;
    }
    return true;
}

SAFE static bool take_out(int number) {
    struct node *before[LEVELS], *at = find(number, before);
    if (!at || at->number != number) return false;
    for (int i = 0; i < at->levels; i++) before[i]->next[i] = at->next[i];
    free(at);
    return true;
}

static int draw_levels(unsigned long *seed) {
    int levels = 1;
    while (levels < LEVELS && !pick(seed, 2)) levels++;
    return levels;
}

void before(void) {
    unsigned long seed = 57721566;
    for (int i = 0; i < NUMBERS; i += 2) count[0][i] += add(i, draw_levels(&seed));
}

void work(int thread, unsigned long *seed) {
    for (int i = 0; i < rounds; i++) {
        int number = pick(seed, NUMBERS), levels = draw_levels(seed), what = pick(seed, 4);
        bool done;
        if (what == 0) {
            __transaction_atomic { done = add(number, levels); }
            count[thread][number] += done;
        } else if (what == 1) {
            __transaction_atomic { done = take_out(number); }
            count[thread][number] -= done;
        } else {
            __transaction_atomic { done = has(number); }
        }
    }
}

static bool is_level(int level) {
    for (struct node *at = head.next[level]; at; at = at->next[level]) {
        if (at->levels <= level || (at->next[level] && at->next[level]->number <= at->number)) return false;
        if (level && !has(at->number)) return false;
    }
    return true;
}

bool after(void) {
    for (int level = 0; level < LEVELS; level++)
        if (!is_level(level)) return false;
    for (int number = 0; number < NUMBERS; number++) {
        long sum = 0;
        for (int i = 0; i < threads; i++) sum += count[i][number];
        if (sum != has(number)) return false;
    }
    return true;
}
