/* Where the region lies, and the memory that the engine takes. */
#include "library.h"
#include <malloc.h>
#include <stdio.h>
#include <stdlib.h>
#include <unistd.h>

enum { LINE = 64, MIB = 1 << 20, HEAP_MIB = 4096 };
static const size_t most_bytes = ((1ul << 32) - 8) * 8; /* that the engine has cells for */

struct memory region, constants;
bool is_verbose;

/* -- of the Rattle functions: what their C library has over malloc. Here that would be the program's. -- */

struct tried {
    uint64_t is_served;
    void *at;
};

static char nowhere;

static struct tried told(void *at) {
    return (struct tried){at != 0, at ? at : &nowhere};
}

/* (In lines of its own: what other threads write to lies beside.) */
struct tried rattle_alloc(size_t size, size_t align) {
    return told(__libc_memalign(LINE, size ? size : align));
}

struct tried rattle_realloc(void *old, size_t had, size_t size, size_t align) {
    (void)had;
    return told(__libc_realloc(old, size ? size : align));
}

void rattle_dealloc(void *at) {
    __libc_free(at);
}

/* -- the heap: the C library's, all of it in one piece behind the data -- */

/* Memory is never given back to the system, since a transaction that will not commit may still read what has been
 * freed. */
static void keep_heap_whole(void) {
    __libc_mallopt(M_ARENA_MAX, 1);
    __libc_mallopt(M_MMAP_MAX, 0);
    __libc_mallopt(M_TRIM_THRESHOLD, -1);
}

/* The program may not change that: it is answered as if it had. */
ENTRY int mallopt(int which, int value) {
    switch (which) {
    case M_ARENA_MAX:
    case M_ARENA_TEST:
    case M_MMAP_MAX:
    case M_MMAP_THRESHOLD:
    case M_TRIM_THRESHOLD: return 1;
    default: return __libc_mallopt(which, value);
    }
}

/* Nothing is released. */
ENTRY int malloc_trim(size_t pad) {
    (void)pad;
    return 0;
}

static size_t heap_room(void) {
    const char *told = getenv("ITM_REGION");
    size_t mib = told ? strtoul(told, 0, 10) : HEAP_MIB;
    return (mib < most_bytes / MIB ? mib : most_bytes / MIB) * MIB;
}

void find_region(void) {
    keep_heap_whole();
    struct data data = find_data();
    uintptr_t clock = data.clock, heap = (uintptr_t)sbrk(0), end = heap + heap_room();
    constants = (struct memory){data.first, (clock ? clock : data.writable) - data.first};
    if (clock > heap) end = data.end; /* the loader was called by name: the heap lies elsewhere */
    if (!clock) {
        /* the data are foreign, and the heap alone is shared */
        if (sbrk(PAGE) == (void *)-1) fail("no memory for the clock");
        clock = (heap + 7) & -8;
    }
    size_t size = (end - clock) & -8;
    region = (struct memory){clock + 8, (size < most_bytes ? size : most_bytes) - 8};
    find_witnesses();
    is_verbose = getenv("ITM_VERBOSE");
    if (is_verbose)
        fprintf(stderr, "libitm (Sofjundel): region %p, %zu MiB\n", (void *)region.at, region.size / MIB);
}
