/* A linker that sorts the data has a variable where they begin, which looks as the start files' words do that come first else:
 * a zero and a pointer to itself, or two zeros in a program that lies at a fixed place.
 * Built with -Wl,--sort-section=alignment,-z,now */
#include "fault.h"

enum { ROUNDS = 10000 };
static struct {
    long count;
    void *self;
    long five;
} first __attribute__((aligned(64))) = {
    0,
#ifdef __PIE__
    &first.self,
#else
    0,
#endif
    5,
};
static long shared;

static void *work(void *none) {
    for (int i = 0; i < ROUNDS; i++)
        __transaction_atomic {
            first.count++;
            shared++;
        }
    return none;
}

int main(int count, char **words) {
    take_words(count, words);
    run_all(threads, work);
    long due = (long)threads * ROUNDS;
    CHECK(first.count == due && shared == due, "%ld and %ld of %ld", first.count, shared, due);
    return done();
}
