/* Allocation within transactions: what is allocated goes back with its block, and what is freed goes with the commit. Both
 * are by the program's own malloc, free, new and delete, whoever's they are. */
#include "library.h"
#include <stdlib.h>

typedef void release_call(void *);

static void *noted(void *p, size_t size, release_call *release) {
    if (p && tx.depth > tx.fixed) add_fresh(p, size, release);
    return p;
}

static void release(struct action a) {
    if (!a.argument) return;
    if (tx.depth) add_action(&tx.commits, a);
    else run_action(a);
}

static void release_by(release_call *call, void *p) {
    release((struct action){.run = call, .argument = p});
}

ENTRY void *_ITM_malloc(size_t size) {
    return noted(malloc(size), size, free);
}

ENTRY void *_ITM_calloc(size_t count, size_t each) {
    return noted(calloc(count, each), count * each, free);
}

ENTRY void _ITM_free(void *p) {
    release_by(free, p);
}

/* -- C++: new and delete, and those for arrays. They are the program's, or its C++ library's, or not there. -- */

#define PERHAPS __attribute__((weak))
extern void *_Znwm(size_t) PERHAPS, *_ZnwmRKSt9nothrow_t(size_t, const void *) PERHAPS;
extern void *_Znam(size_t) PERHAPS, *_ZnamRKSt9nothrow_t(size_t, const void *) PERHAPS;
extern void _ZdlPv(void *) PERHAPS, _ZdlPvm(void *, size_t) PERHAPS, _ZdlPvRKSt9nothrow_t(void *, const void *) PERHAPS;
extern void _ZdaPv(void *) PERHAPS, _ZdaPvRKSt9nothrow_t(void *, const void *) PERHAPS;

static const char nothrow;

static void delete_nothrow(void *p) {
    _ZdlPvRKSt9nothrow_t(p, &nothrow);
}

static void delete_array_nothrow(void *p) {
    _ZdaPvRKSt9nothrow_t(p, &nothrow);
}

static release_call *one_of(release_call *call) {
    return call ? call : free;
}

static void *surely_made(size_t size) {
    void *p = malloc(size ? size : 1);
    if (!p) fail("no memory for a new, and no exception may leave a transaction");
    return p;
}

ENTRY void *_ZGTtnwm(size_t size) {
    return noted(_Znwm ? _Znwm(size) : surely_made(size), size, one_of(_ZdlPv));
}

ENTRY void *_ZGTtnam(size_t size) {
    return noted(_Znam ? _Znam(size) : surely_made(size), size, one_of(_ZdaPv));
}

ENTRY void *_ZGTtnwmRKSt9nothrow_t(size_t size, const void *tag) {
    bool is_there = _ZnwmRKSt9nothrow_t && _ZdlPvRKSt9nothrow_t;
    if (!is_there) return noted(malloc(size ? size : 1), size, free);
    return noted(_ZnwmRKSt9nothrow_t(size, tag), size, delete_nothrow);
}

ENTRY void *_ZGTtnamRKSt9nothrow_t(size_t size, const void *tag) {
    bool is_there = _ZnamRKSt9nothrow_t && _ZdaPvRKSt9nothrow_t;
    if (!is_there) return noted(malloc(size ? size : 1), size, free);
    return noted(_ZnamRKSt9nothrow_t(size, tag), size, delete_array_nothrow);
}

ENTRY void _ZGTtdlPv(void *p) {
    release_by(one_of(_ZdlPv), p);
}

ENTRY void _ZGTtdaPv(void *p) {
    release_by(one_of(_ZdaPv), p);
}

ENTRY void _ZGTtdlPvm(void *p, size_t size) {
    if (_ZdlPvm) release((struct action){.run_sized = _ZdlPvm, .argument = p, .size = size});
    else _ZGTtdlPv(p);
}

ENTRY void _ZGTtdlPvRKSt9nothrow_t(void *p, const void *tag) {
    (void)tag;
    release_by(_ZdlPvRKSt9nothrow_t ? delete_nothrow : free, p);
}

ENTRY void _ZGTtdaPvRKSt9nothrow_t(void *p, const void *tag) {
    (void)tag;
    release_by(_ZdaPvRKSt9nothrow_t ? delete_array_nothrow : free, p);
}

ENTRY void _ZGTtdlPvmRKSt9nothrow_t(void *p, size_t size, const void *tag) {
    (void)tag;
    _ZGTtdlPvm(p, size);
}
