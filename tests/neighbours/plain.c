/* A library before the C library's, with a thread that stores plainly beside what transactions write: it counts in the high
 * half of the first word, from when the program starts a thread until the words are given back, and looks before each store
 * whether the last one is still there. The words are the last block of CELLS bytes before that: the clock, and then the memory.
 *
 * At the end the file TOLD gets how many of its stores were lost, whether there were some, and the word's low half. */
#define _GNU_SOURCE
#include <dlfcn.h>
#include <pthread.h>
#include <stdatomic.h>
#include <stdint.h>
#include <stdio.h>
#include <stdlib.h>

typedef int create(pthread_t *, const pthread_attr_t *, void *(*)(void *), void *);
extern void *__libc_malloc(size_t);
extern void __libc_free(void *);

static char *cells;
static pthread_t counter;
static atomic_int started, ends;
static long stores, lost;

static void *count(void *none) {
    volatile uint32_t *half = (void *)(cells + 12);
    uint32_t last = *half;
    while (!atomic_load(&ends)) {
        if (*half != last) lost++;
        *half = ++last;
        stores++;
    }
    if (*half != last) lost++;
    return none;
}

static void tell(void) {
    FILE *told = fopen(getenv("TOLD"), "w");
    fprintf(told, "%ld lost of %s, %u\n", lost, stores ? "some" : "none", *(uint32_t *)(cells + 8));
    fclose(told);
}

void *malloc(size_t size) {
    char *block = __libc_malloc(size);
    if (!atomic_load(&started) && size == strtoul(getenv("CELLS"), 0, 10)) cells = block;
    return block;
}

int pthread_create(pthread_t *thread, const pthread_attr_t *how, void *(*run)(void *), void *with) {
    create *really = (create *)dlsym(RTLD_NEXT, "pthread_create");
    if (cells && !atomic_exchange(&started, 1)) really(&counter, 0, count, 0);
    return really(thread, how, run, with);
}

void free(void *block) {
    if (block && block == cells) {
        if (atomic_load(&started)) {
            atomic_store(&ends, 1);
            pthread_join(counter, 0);
            tell();
        }
        cells = 0;
    }
    __libc_free(block);
}
