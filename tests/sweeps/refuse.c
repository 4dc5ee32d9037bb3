/* A library before the C library's that refuses what the environment says:
 *
 * REFUSE=N          the allocation of this number, and with REFUSE_LATER each one after it too
 * REFUSE_THREAD=N   the thread of this number
 * REFUSE_READ=N     the read of this number
 * REFUSE_WRITE=N    the write of this number to the standard output, REFUSE_ERROR=N to the standard error
 * TAKE_NOTHING=N    the write of this number to the standard output takes none of its bytes, and is no error
 * ONE_BYTE          each read and each write moves one byte
 *
 * Each of the numbers counts from 1. REFUSED is a file that is made where something was refused. */
#define _GNU_SOURCE
#include <dlfcn.h>
#include <errno.h>
#include <fcntl.h>
#include <pthread.h>
#include <stdatomic.h>
#include <stdlib.h>
#include <sys/syscall.h>
#include <unistd.h>

typedef int create(pthread_t *, const pthread_attr_t *, void *(*)(void *), void *);
extern void *__libc_malloc(size_t);
extern void *__libc_realloc(void *, size_t);

static atomic_long allocations, threads, reads, writes, takes, errors;

static int refuses(const char *name, atomic_long *count, int later) {
    const char *number = getenv(name);
    if (number == 0) return 0;
    long before = atol(number) - (atomic_fetch_add(count, 1) + 1);
    if (before > 0 || (before < 0 && !later)) return 0;
    close(open(getenv("REFUSED"), O_CREAT | O_WRONLY, 0600));
    return 1;
}

static int refuses_memory(void) {
    if (!refuses("REFUSE", &allocations, getenv("REFUSE_LATER") != 0)) return 0;
    errno = ENOMEM;
    return 1;
}

void *malloc(size_t size) {
    return refuses_memory() ? 0 : __libc_malloc(size);
}

void *realloc(void *old, size_t size) {
    return refuses_memory() ? 0 : __libc_realloc(old, size);
}

int pthread_create(pthread_t *thread, const pthread_attr_t *how, void *(*run)(void *), void *with) {
    if (refuses("REFUSE_THREAD", &threads, 0)) return EAGAIN;
    return ((create *)dlsym(RTLD_NEXT, "pthread_create"))(thread, how, run, with);
}

static size_t part(size_t size) {
    return size > 1 && getenv("ONE_BYTE") ? 1 : size;
}

ssize_t read(int file, void *bytes, size_t size) {
    if (refuses("REFUSE_READ", &reads, 0)) {
        errno = EIO;
        return -1;
    }
    return syscall(SYS_read, file, bytes, part(size));
}

ssize_t write(int file, const void *bytes, size_t size) {
    if (file == 2 ? refuses("REFUSE_ERROR", &errors, 0) : refuses("REFUSE_WRITE", &writes, 0)) {
        errno = EIO;
        return -1;
    }
    if (file == 1 && refuses("TAKE_NOTHING", &takes, 0)) return 0;
    return syscall(SYS_write, file, bytes, part(size));
}
