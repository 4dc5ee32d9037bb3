/* Lists that grow, in memory that no transaction has; and how the library gives up. */
#include "library.h"
#include <stdarg.h>
#include <stdio.h>
#include <stdlib.h>

void fail(const char *form, ...) {
    va_list rest;
    va_start(rest, form);
    fputs("libitm (Sofjundel): ", stderr);
    vfprintf(stderr, form, rest);
    fputc('\n', stderr);
    va_end(rest);
    abort();
}

static SLOW void list_grow(struct list *l, size_t size) {
    size_t room = 2 * l->room + size + 256;
    char *at = __libc_realloc(l->at, room);
    if (!at) fail("no memory for a transaction");
    l->at = at;
    l->room = room;
}

void *list_add(struct list *l, size_t size) {
    if (UNLIKELY(l->room - l->used < size)) list_grow(l, size);
    tx.has_more = true;
    l->used += size;
    return l->at + l->used - size;
}

void list_drop(struct list *l) {
    __libc_free(l->at);
    *l = (struct list){0};
}

/* `spent` was this list, and has all been used up: its room is of use again, where the list has got no other. */
void list_keep_room(struct list *l, struct list *spent) {
    spent->used = 0;
    if (l->at) list_drop(spent);
    else *l = *spent;
}

void add_action(struct list *l, struct action a) {
    *(struct action *)list_add(l, sizeof a) = a;
}
