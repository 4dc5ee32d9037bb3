/* The shared memory: the program's writable data and its heap, side by side in one row of bytes. Of a byte that
 * transactions touch, the opening value is the one that it has before the first such call is passed on. So it does not
 * matter how the program filled it before, and a byte that no transaction touches may change at any time. Another
 * thread's call on the same bytes waits until they are taken. */
#include "recorder.h"
#include <link.h>

enum { REGIONS = 8 };

struct region regions[REGIONS];
int region_count;
struct word *words;
size_t *touched_words;
size_t touched_count;
size_t space;

static atomic_flag touching = ATOMIC_FLAG_INIT;

static void add_region(void *at, size_t size) {
    uintptr_t from = (uintptr_t)at & -8, to = ((uintptr_t)at + size + 7) & -8;
    if (region_count == REGIONS) fail("the program has more than %d parts of writable data", REGIONS);
    regions[region_count++] = (struct region){(byte *)from, to - from, space};
    space += to - from;
}

static int add_program(struct dl_phdr_info *object, size_t size, void *none) {
    (void)size, (void)none;
    for (int i = 0; i < object->dlpi_phnum; i++) {
        const ElfW(Phdr) *part = &object->dlpi_phdr[i];
        if (part->p_type == PT_LOAD && part->p_flags & PF_W)
            add_region((void *)(object->dlpi_addr + part->p_vaddr), part->p_memsz);
    }
    return 1; /* the program comes first, and alone is wanted */
}

void open_space(void) {
    dl_iterate_phdr(add_program, 0);
    add_region(heap_memory(), heap_size);
    touched_words = reserve(space / 8 * sizeof *touched_words);
    words = reserve(space / 8 * sizeof *words);
}

byte *address_of(size_t place) {
    int i = 0;
    while (place - regions[i].first >= regions[i].size) i++;
    return regions[i].at + (place - regions[i].first);
}

/* All bits of each byte that has its bit. */
uint64_t mask_of(byte bits) {
    uint64_t mask = 0;
    for (int i = 0; i < 8; i++)
        if (bits >> i & 1) mask |= 0xffull << 8 * i;
    return mask;
}

static void keep_opening(size_t word, byte bits) {
    struct word *w = &words[word];
    uint64_t fresh = mask_of(bits & ~w->touched), now = word_now(word);
    w->opening |= now & fresh;
    w->known = (w->known & ~fresh) | (now & fresh);
    atomic_store_explicit(&w->touched, w->touched | bits, memory_order_release);
}

static void lock(void) {
    while (atomic_flag_test_and_set_explicit(&touching, memory_order_acquire));
}

static void unlock(void) {
    atomic_flag_clear_explicit(&touching, memory_order_release);
}

void first_touch(size_t word, byte bits) {
    lock();
    if (!words[word].touched) touched_words[touched_count++] = word;
    keep_opening(word, bits);
    unlock();
}

/* Before memory of the heap is freed: what it is filled with is never an opening, so whoever reads it from now on is
 * compared with what it was. */
void last_touch(const void *p, size_t size) {
    if (!words) return;
    lock();
    for (size_t word = place_of(p, size) / 8, count = (size + 7) / 8; count; count--) keep_opening(word++, 0xff);
    unlock();
}
