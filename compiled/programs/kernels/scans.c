/* Long transactions that only read, beside short ones that write: an auditor adds up all accounts of a bank, page by page,
 * while others move money between two of them and now and then write a page's date. Each audit finds all the money. */
#include "../program.h"

enum { PAGES = 32, ACCOUNTS = 16, EACH = 1000 };
struct page {
    long date;
    int account[ACCOUNTS];
    struct page *next;
};
static struct page page[PAGES], *first;
static long audits[MOST_THREADS], moves[MOST_THREADS];
static long last_date;

SAFE static long all_money(long *newest) {
    long sum = 0;
    for (struct page *p = first; p; p = p->next) {
        if (p->date > *newest) *newest = p->date;
        for (int i = 0; i < ACCOUNTS; i++) sum += p->account[i];
    }
    return sum;
}

static void audit(int thread) {
    long sum, newest, last;
    __transaction_atomic {
        newest = 0;
        sum = all_money(&newest);
        last = last_date;
    }
    check(sum == (long)PAGES * ACCOUNTS * EACH, "an audit");
    check(newest == last, "the date of an audit");
    audits[thread]++;
}

static void move(int thread, unsigned long *seed) {
    struct page *from = &page[pick(seed, PAGES)], *to = &page[pick(seed, PAGES)];
    int less = pick(seed, ACCOUNTS), more = pick(seed, ACCOUNTS), money = pick(seed, 10);
    bool dates = !pick(seed, 8);
    __transaction_atomic {
        from->account[less] -= money;
        to->account[more] += money;
        if (dates) to->date = ++last_date;
    }
    moves[thread]++;
}

void before(void) {
    for (int i = PAGES; i-- > 0;) {
        for (int k = 0; k < ACCOUNTS; k++) page[i].account[k] = EACH;
        page[i].next = first;
        first = &page[i];
    }
}

void work(int thread, unsigned long *seed) {
    for (int i = 0; i < rounds; i++) {
        if (pick(seed, 4)) move(thread, seed);
        else audit(thread);
    }
}

bool after(void) {
    long newest = 0, done = 0;
    for (int i = 0; i < threads; i++) done += audits[i] + moves[i];
    return all_money(&newest) == (long)PAGES * ACCOUNTS * EACH && newest == last_date && done == (long)threads * rounds;
}
