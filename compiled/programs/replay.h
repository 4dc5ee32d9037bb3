/* Checks every answer and every byte. Each step is one transaction on `shared`, which takes a ticket in it too, so the
 * tickets tell the order of the commits. In that order plain code takes the same steps on `model`, which began as a copy,
 * and has to come to the same answers and the same bytes.
 *
 * A program has `struct state`, without padding, and `apply`; MODEL names another function that takes a step plainly,
 * where `apply` has transactions of its own. */
#include "program.h"

struct state;
SAFE static long apply(struct state *state, unsigned what, unsigned a, unsigned b);
#ifdef MODEL
static long MODEL(struct state *state, unsigned what, unsigned a, unsigned b);
#else
#define MODEL apply
#endif
void fill(struct state *state); /* the state that both begin with */

struct step {
    long ticket;
    unsigned what, a, b;
    long answer;
};
static long tickets;
static struct {
    struct step *step;
    long count, room;
} row[MOST_THREADS];

static void keep_step(int thread, struct step step) {
    if (row[thread].count == row[thread].room) {
        row[thread].room = 2 * row[thread].room + 1024;
        row[thread].step = realloc(row[thread].step, row[thread].room * sizeof step);
    }
    row[thread].step[row[thread].count++] = step;
}

/* These three want `shared` and `model`. */
#define REPLAYED                                                                           \
    static struct state shared, model;                                                     \
    static void take_step(int thread, unsigned what, unsigned a, unsigned b) {             \
        long ticket, answer;                                                               \
        __transaction_atomic {                                                             \
            ticket = ++tickets;                                                            \
            answer = apply(&shared, what, a, b);                                           \
        }                                                                                  \
        keep_step(thread, (struct step){2 * ticket, what, a, b, answer});                  \
    }                                                                                      \
    /* A step that writes nothing stands behind the one whose ticket it saw. */            \
    static inline void look(int thread, unsigned what, unsigned a, unsigned b) {           \
        long ticket, answer;                                                               \
        __transaction_atomic {                                                             \
            ticket = tickets;                                                              \
            answer = apply(&shared, what, a, b);                                           \
        }                                                                                  \
        keep_step(thread, (struct step){2 * ticket + 1, what, a, b, answer});              \
    }                                                                                      \
    /* All writes of the step, then none. */                                               \
    static void take_back(unsigned what, unsigned a, unsigned b) {                         \
        __transaction_atomic {                                                             \
            tickets = tickets + 1;                                                         \
            apply(&shared, what, a, b);                                                    \
            __transaction_cancel;                                                          \
        }                                                                                  \
    }                                                                                      \
    void before(void) {                                                                    \
        fill(&shared);                                                                     \
        fill(&model);                                                                      \
    }                                                                                      \
    bool after(void) {                                                                     \
        return replay(&model) && tickets == steps_with_ticket && !memcmp(&model, &shared, sizeof model); \
    }

static long steps_with_ticket;

static int by_ticket(const void *a, const void *b) {
    long one = ((const struct step *)a)->ticket, other = ((const struct step *)b)->ticket;
    return (one > other) - (one < other);
}

static bool replay(struct state *model) {
    long count = 0;
    for (int i = 0; i < threads; i++) count += row[i].count;
    struct step *all = malloc((count + 1) * sizeof *all), *end = all;
    for (int i = 0; i < threads; i++)
        if (row[i].count) end = (struct step *)mempcpy(end, row[i].step, row[i].count * sizeof *all);
    qsort(all, count, sizeof *all, by_ticket);
    for (struct step *step = all; step < end; step++) {
        if (step->ticket % 2 == 0 && step->ticket != 2 * ++steps_with_ticket) {
            complain("two steps have one ticket, or one has none");
            return false;
        }
        if (MODEL(model, step->what, step->a, step->b) != step->answer) {
            printf("step %ld, %u of %u and %u, answered %ld\n", step->ticket, step->what, step->a, step->b, step->answer);
            complain("an answer");
            return false;
        }
    }
    free(all);
    return true;
}
