/* All descriptors of files are in use as the main thread has its first transaction, so /proc can't be read. */
#include "fault.h"
#include <sys/resource.h>

static long shared;

int main(void) {
    struct rlimit limit = {3, 3};
    setrlimit(RLIMIT_NOFILE, &limit);
    for (int i = 0; i < 1000; i++)
        __transaction_atomic { shared++; }
    CHECK(shared == 1000, "%ld", shared);
    return done();
}
