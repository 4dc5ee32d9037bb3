/* Makes a runtime faulty, to see that it is told: a library below the recorder and above the runtime, that serves one
 * in so many calls wrongly.
 *
 * FAULT   stale  a read gives what was there before the last write
 *         blind  a read looks at memory itself: what it saw is never validated
 *         drop   a write is not done
 *         naked  a write goes to memory itself: neither locked nor ever undone
 *         wide   a 4-byte write sets the 4 bytes behind it to zero as well
 *         free   memory is freed at once, and not with the commit
 * ONE_IN  how many calls there are to one that is wrong: 1000 where it is not set
 *
 * Barriers of 4 and 8 bytes are served so, on the program's data and its heap. */
#define _GNU_SOURCE
#include <dlfcn.h>
#include <stdbool.h>
#include <stdint.h>
#include <stdlib.h>
#include <string.h>

enum { ENTRIES = 1 << 16, STACK = 8 << 20 };

static const char *fault = "";
static unsigned one_in = 1000;
static struct {
    const void *at;
    uint64_t value;
} earlier[ENTRIES]; /* what writes replaced, by the low bits of the address */

static void __attribute__((constructor)) set_up(void) {
    if (getenv("FAULT")) fault = getenv("FAULT");
    if (getenv("ONE_IN")) one_in = atoi(getenv("ONE_IN"));
}

/* Not the stack, and not the recorder's own data. */
static bool is_the_programs(const void *p) {
    Dl_info recorder, other;
    uintptr_t here = (uintptr_t)&recorder;
    if ((uintptr_t)p - (here - STACK) < 2 * STACK) return false;
    dladdr(dlsym(RTLD_DEFAULT, "_ITM_beginTransaction"), &recorder);
    return !dladdr(p, &other) || other.dli_fbase != recorder.dli_fbase;
}

static bool strikes(const char *which, const void *p) {
    static __thread uint64_t random;
    if (strcmp(fault, which)) return false;
    if (!random) random = (uint64_t)&random;
    random ^= random << 13, random ^= random >> 7, random ^= random << 17;
    return random % one_in == 0 && is_the_programs(p);
}

#define ENTRY_OF(p) earlier[(uintptr_t)(p) / 4 % ENTRIES]

static void keep_earlier(const void *p, size_t size) {
    if (strcmp(fault, "stale")) return;
    memcpy(&ENTRY_OF(p).value, p, size);
    ENTRY_OF(p).at = p;
}

#define NEXT(NAME)                 \
    static __typeof__(NAME) *real; \
    if (!real) real = dlsym(RTLD_NEXT, #NAME)

#define READ(NAME, T)                                                                               \
    T _ITM_##NAME(const T *p) {                                                                     \
        NEXT(_ITM_##NAME);                                                                          \
        if (strikes("blind", p)) return *p;                                                         \
        T value = real(p);                                                                          \
        if (strikes("stale", p) && ENTRY_OF(p).at == p) memcpy(&value, &ENTRY_OF(p).value, sizeof value); \
        return value;                                                                               \
    }
#define WRITE(NAME, T)                                                     \
    void _ITM_##NAME(T *p, T value) {                                      \
        NEXT(_ITM_##NAME);                                                 \
        keep_earlier(p, sizeof value);                                     \
        if (strikes("drop", p)) return;                                    \
        if (strikes("naked", p)) *p = value;                               \
        else real(p, value);                                               \
        if (sizeof value == 4 && strikes("wide", p)) real(p + 1, 0);       \
    }
#define BARRIERS(SUFFIX, T) \
    READ(R##SUFFIX, T)      \
    READ(RaR##SUFFIX, T)    \
    READ(RaW##SUFFIX, T)    \
    READ(RfW##SUFFIX, T)    \
    WRITE(W##SUFFIX, T)     \
    WRITE(WaR##SUFFIX, T)   \
    WRITE(WaW##SUFFIX, T)
BARRIERS(U4, uint32_t)
BARRIERS(U8, uint64_t)

void _ITM_free(void *p) {
    NEXT(_ITM_free);
    if (p && strikes("free", p)) free(p);
    else real(p);
}
