/* There is no /proc where the main thread has its first transaction: the C library can't tell where its stack lies. */
#include "fault.h"

static long shared;

int main(void) {
    char folder[] = "no_proc.XXXXXX";
    long own = 0, *own_at = &own;
    if (chdir("/tmp") || !mkdtemp(folder)) return skipped();
    bool failed = chroot(folder);
    if (rmdir(folder) || failed) return skipped();
    for (int i = 0; i < 1000; i++)
        __transaction_atomic {
            shared++;
            *own_at += 1;
        }
    __transaction_atomic {
        *own_at += 1;
        __transaction_cancel;
    }
    CHECK(shared == 1000 && own == 1000, "%ld and %ld", shared, own);
    return done();
}
