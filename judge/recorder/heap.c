/* The program's malloc: a region of its own that reuses nothing. So what a place of the history stands for never
 * changes, and a node's first bytes are those that its owner gave it before transactions saw it. What is freed is
 * filled with 0xdb: a transaction that still reads it, since the runtime freed it too early or let its owner free it
 * while others could see it, reads what no commit wrote. */
#include "recorder.h"
#include <dlfcn.h>
#include <errno.h>
#include <malloc.h>
#include <stdio.h>
#include <stdlib.h>

enum { POISON = 0xdb, SMALLEST = 16, PAGE = 4096 };
enum { KEPT = 1 << 20 }; /* bytes for what is written at the end, where the program has used up all others */

size_t heap_size = (size_t)4 << 30;

static byte *heap;
static atomic_size_t used;
static __thread const void *asker; /* the program's call that the runtime serves by the next malloc */

static const void *library_of(const void *entry) {
    Dl_info library;
    return entry && dladdr(entry, &library) ? library.dli_fbase : 0;
}

/* A runtime that has a malloc of its own serves that memory otherwise than all other: then this heap is one block of
 * it. */
static byte *block_of_runtime(void) {
    void *(*serve)(size_t) = dlsym(RTLD_NEXT, "malloc");
    if (library_of(serve) != library_of(dlsym(RTLD_NEXT, "_ITM_beginTransaction"))) return 0;
    byte *block = serve(heap_size / 4);
    if (block) heap_size /= 4;
    return block;
}

/* The first call comes as the program is loaded, before it has threads. */
byte *heap_memory(void) {
    if (!heap) heap = block_of_runtime();
    if (!heap) heap = reserve(heap_size);
    return heap;
}

static void *none_left(size_t size) {
    static atomic_flag told = ATOMIC_FLAG_INIT;
    if (!atomic_flag_test_and_set(&told)) fprintf(stderr, "recorder: malloc gave nothing for %zu bytes\n", size);
    errno = ENOMEM;
    return 0;
}

static void *take(size_t size, size_t alignment, const void *caller) {
    size_t chunk = (sizeof(struct block) + size + alignment + SMALLEST - 1) & -SMALLEST;
    size_t at = used, most = stopping ? heap_size : heap_size - KEPT;
    do
        if (size > most || alignment > most || at + chunk > most) return none_left(size);
    while (!atomic_compare_exchange_weak(&used, &at, at + chunk));
    struct block *block = (struct block *)(heap_memory() + at);
    byte *memory = (byte *)(((uintptr_t)(block + 1) + alignment - 1) & -alignment);
    block->size = size;
    block->memory = memory;
    block->caller = asker ? asker : caller;
    block->chunk = chunk;
    ((size_t *)memory)[-1] = memory - (byte *)block;
    asker = 0;
    return memory;
}

static struct block *block_of(void *p) {
    return (struct block *)((byte *)p - ((size_t *)p)[-1]);
}

const struct block *first_block(void) {
    return (const struct block *)heap;
}

/* None where the block is not there yet, or is just being made. */
const struct block *block_after(const struct block *block) {
    block = (const struct block *)((const byte *)block + block->chunk);
    return (const byte *)block < heap + used && block->chunk ? block : 0;
}

ENTRY void *malloc(size_t size) {
    return take(size, SMALLEST, __builtin_return_address(0));
}

ENTRY void *calloc(size_t number, size_t size) {
    size_t total;
    if (__builtin_mul_overflow(number, size, &total)) return none_left(SIZE_MAX);
    return take(total, SMALLEST, __builtin_return_address(0));
}

ENTRY void free(void *p) {
    if (!p || (uintptr_t)p - (uintptr_t)heap >= heap_size) return; /* none, or the loader's own */
    struct block *block = block_of(p);
    if (atomic_exchange(&block->freed, 1)) {
        fprintf(stderr, "recorder: memory is freed twice: %p\n", p);
        return;
    }
    last_touch(p, block->size);
    memset(p, POISON, block->size);
}

ENTRY void *realloc(void *p, size_t size) {
    void *larger = take(size, SMALLEST, __builtin_return_address(0));
    if (!p || !larger) return larger;
    size_t had = block_of(p)->size;
    memcpy(larger, p, had < size ? had : size);
    free(p);
    return larger;
}

ENTRY void *memalign(size_t alignment, size_t size) {
    return take(size, alignment < SMALLEST ? SMALLEST : alignment, __builtin_return_address(0));
}

ENTRY void *aligned_alloc(size_t alignment, size_t size) {
    return take(size, alignment < SMALLEST ? SMALLEST : alignment, __builtin_return_address(0));
}

ENTRY int posix_memalign(void **p, size_t alignment, size_t size) {
    *p = take(size, alignment < SMALLEST ? SMALLEST : alignment, __builtin_return_address(0));
    return *p ? 0 : ENOMEM;
}

ENTRY void *valloc(size_t size) {
    return take(size, PAGE, __builtin_return_address(0));
}

ENTRY void *pvalloc(size_t size) {
    return take((size + PAGE - 1) & -PAGE, PAGE, __builtin_return_address(0));
}

ENTRY size_t malloc_usable_size(void *p) {
    return p ? block_of(p)->size : 0;
}

/* In a transaction: the runtime serves these by malloc, and remembers what it has to free. */

ENTRY void *_ITM_malloc(size_t size) {
    NEXT(_ITM_malloc);
    before();
    asker = __builtin_return_address(0);
    return real(size);
}

ENTRY void *_ITM_calloc(size_t number, size_t size) {
    NEXT(_ITM_calloc);
    before();
    asker = __builtin_return_address(0);
    return real(number, size);
}

/* `new` and `new[]` of C++, in a transaction and outside, which malloc serves too; one may be served by another. */
#define NEW(NAME)                                           \
    ENTRY void *NAME(size_t size) {                         \
        NEXT(NAME);                                         \
        before();                                           \
        if (!asker) asker = __builtin_return_address(0);    \
        return real(size);                                  \
    }
NEW(_ZGTtnwm)
NEW(_ZGTtnam)
NEW(_Znwm)
NEW(_Znam)
