/* A sorted list whose nodes come and go: what a transaction allocates may be a node that it has just passed, and that another
 * one has taken out and freed since. A number that it puts behind that node would be lost. */
#include "fault.h"

enum { NUMBERS = 12, ROUNDS = 20000 };
struct node {
    struct node *next;
    long number;
};
static struct node head;
static long added[MOST_THREADS][NUMBERS]; /* how often each thread has put a number in, less how often it took it out */

SAFE static struct node *before(long number) {
    struct node *at = &head;
    while (at->next && at->next->number < number) at = at->next;
    return at;
}

SAFE static bool has(long number) {
    struct node *at = before(number)->next;
    return at && at->number == number;
}

SAFE static bool put_in(long number) {
    struct node *at = before(number);
    if (at->next && at->next->number == number) return false;
    struct node *new = malloc(sizeof *new);
    new->number = number;
    new->next = at->next;
    at->next = new;
    return true;
}

SAFE static bool take_out(long number) {
    struct node *at = before(number), *gone = at->next;
    if (!gone || gone->number != number) return false;
    at->next = gone->next;
    free(gone);
    return true;
}

static void *work(void *number_of_thread) {
    long thread = (long)number_of_thread;
    unsigned seed = thread + 1;
    for (int round = 0; round < ROUNDS; round++) {
        long number = rand_r(&seed) / 8 % NUMBERS;
        bool puts = rand_r(&seed) / 8 % 2, done;
        if (puts) __transaction_atomic { done = put_in(number); }
        else __transaction_atomic { done = take_out(number); }
        if (done) added[thread][number] += puts ? 1 : -1;
    }
    return 0;
}

int main(int count, char **words) {
    take_words(count, words);
    run_all(threads, work);
    for (long number = 0; number < NUMBERS; number++) {
        long sum = 0;
        for (int thread = 0; thread < threads; thread++) sum += added[thread][number];
        CHECK(sum == has(number), "%ld is there %d times, and not %ld", number, has(number), sum);
    }
    for (struct node *at = head.next; at && at->next; at = at->next)
        CHECK(at->number < at->next->number, "%ld before %ld", at->number, at->next->number);
    return done();
}
