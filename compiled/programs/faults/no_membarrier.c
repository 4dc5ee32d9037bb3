/* The system call membarrier is refused, as in a sandbox, and threads add to a local variable of another. */
#include "fault.h"
#include <errno.h>
#include <linux/filter.h>
#include <linux/seccomp.h>
#include <stddef.h>
#include <sys/prctl.h>
#include <sys/syscall.h>

enum { ROUNDS = 1000 };
static long *shared;

static bool refuse(int call) {
    struct sock_filter filter[] = {
        BPF_STMT(BPF_LD | BPF_W | BPF_ABS, offsetof(struct seccomp_data, nr)),
        BPF_JUMP(BPF_JMP | BPF_JEQ | BPF_K, call, 0, 1),
        BPF_STMT(BPF_RET | BPF_K, SECCOMP_RET_ERRNO | EPERM),
        BPF_STMT(BPF_RET | BPF_K, SECCOMP_RET_ALLOW),
    };
    struct sock_fprog program = {sizeof filter / sizeof *filter, filter};
    return !prctl(PR_SET_NO_NEW_PRIVS, 1, 0, 0, 0) && !prctl(PR_SET_SECCOMP, SECCOMP_MODE_FILTER, &program);
}

static void *work(void *none) {
    for (int i = 0; i < ROUNDS; i++)
        __transaction_atomic { *shared += 1; }
    return none;
}

int main(int count, char **words) {
    pthread_t thread[MOST_THREADS];
    long here = 0;
    take_words(count, words);
    if (!refuse(SYS_membarrier)) return skipped();
    shared = &here;
    work(0); /* alone: it is the thread's own */
    for (int i = 1; i < threads; i++) thread[i] = started(work, 0);
    work(0);
    for (int i = 1; i < threads; i++) pthread_join(thread[i], 0);
    CHECK(here == ROUNDS * (threads + 1l), "%ld", here);
    return done();
}
