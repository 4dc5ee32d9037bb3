/* Pages that are copied whole, in one call, while others move amounts within them, or write there and cancel: a copy is
 * torn where the runtime does not look at each lock, before the bytes are read and behind them, or cannot see that one
 * was taken in between. The cells of a page add up to nothing. */
#include "program.h"

enum { PAGES = 2, CELLS = 256 };
struct page {
    long cell[CELLS];
};
static struct {
    struct page page[PAGES];
} shared;

static void move(struct page *page, int from, int to, long amount) {
    __transaction_atomic {
        page->cell[from] -= amount;
        page->cell[to] += amount;
    }
}

static void write_and_cancel(struct page *page, int at, long amount) {
    __transaction_atomic {
        page->cell[at] = amount;
        if (amount >= 0) __transaction_cancel;
    }
}

static bool is_whole(const struct page *page) {
    struct page own;
    long sum = 0;
    __transaction_atomic { own = *page; }
    for (int i = 0; i < CELLS; i++) sum += own.cell[i];
    return sum == 0;
}

void work(int thread, unsigned *seed) {
    (void)thread;
    for (int i = 0; i < rounds; i++) {
        struct page *page = &shared.page[pick(seed, PAGES)];
        int from = pick(seed, CELLS), to = pick(seed, CELLS);
        switch (pick(seed, 4)) {
        case 0: case 1: move(page, from, to, pick(seed, 100)); break;
        case 2: write_and_cancel(page, from, 1 + pick(seed, 100)); break;
        default: if (!is_whole(page)) complain("pages: a torn copy");
        }
    }
}

void before(void) {
}

bool after(void) {
    return is_whole(&shared.page[0]) && is_whole(&shared.page[1]);
}
