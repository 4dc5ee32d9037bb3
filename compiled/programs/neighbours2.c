/* Plain bytes within the words that transactions write: in front of, between and behind parts of 1, 2 and 4 bytes, copies
 * and fills that end in the middle of a word, in atomic transactions that commit or cancel and in irrevocable ones. Each
 * thread has plain bytes of its own, which it alone adds to. */
#include "program.h"

static struct __attribute__((packed, aligned(8))) {
    volatile uint8_t first;
    uint8_t one;
    uint16_t two;
    uint32_t four;
    volatile uint8_t second;
    uint8_t copied[21];
    volatile uint16_t third;
    uint8_t filled[11];
    volatile uint32_t fourth;
    uint8_t last;
} all[4];
static uint32_t plain[4], added[MOST_THREADS][4];
static uint8_t source[21];

__attribute__((transaction_unsafe, noinline)) static void unsafe(void) {
    __asm__ volatile("" ::: "memory");
}

static bool add(int i, bool back) {
    bool done = false;
    __transaction_atomic {
        all[i].one++, all[i].two++, all[i].four++, all[i].last++;
        source[3] = all[i].one;
        memcpy(all[i].copied, source, 21);
        memset(all[i].filled, all[i].one, 11);
        if (back) __transaction_cancel;
        done = true;
    }
    return done;
}

static void add_firmly(int i) {
    __transaction_relaxed {
        all[i].one++;
        unsafe();
        all[i].two++, all[i].four++, all[i].last++;
    }
}

void work(int thread, unsigned long *seed) {
    int own = thread % 4;
    for (int i = 0; i < 40 * rounds; i++) {
        if (thread < 4) all[own].first++, all[own].second++, all[own].third++, all[own].fourth++, plain[own]++;
        int other = pick(seed, 4), what = pick(seed, 256);
        if (what == 0) add_firmly(other), added[thread][other]++;
        else if (what < 100) added[thread][other] += add(other, what < 20);
    }
}

void before(void) {
}

bool after(void) {
    for (int i = 0; i < 4; i++) {
        uint32_t due = 0;
        for (int t = 0; t < threads; t++) due += added[t][i];
        check(all[i].first == (uint8_t)plain[i] && all[i].second == (uint8_t)plain[i], "plain bytes");
        check(all[i].third == (uint16_t)plain[i] && all[i].fourth == plain[i], "plain words");
        check(all[i].one == (uint8_t)due && all[i].two == (uint16_t)due && all[i].four == due && all[i].last == (uint8_t)due, "shared ones");
    }
    return true;
}
