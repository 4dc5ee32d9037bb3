/* What an attempt logged of its thread's own memory (_ITM_L*): GCC has it restored where a block is rolled back. These
 * bytes are the attempt's arena. What the program stored there, without the ABI, is noted before an inner block is
 * cancelled, and what is there afterwards is noted as loads. */
#include "recorder.h"

static const size_t stack_size = 8 << 20;

/* `stack` is the innermost frame that is there still. */
void note_own(struct thread *t, enum kind kind, const byte *stack) {
    if (t->mixed && kind == LOAD) return;
    for (struct own *own = t->own; own < t->own + t->own_count; own++) {
        bool gone = own->at < stack && own->at >= stack - stack_size;
        if (!gone) note_bytes(t, kind, own->place, own->at, own->size);
    }
}

void logged(struct thread *t, const char *name, const void *p, size_t size) {
    const byte *at = p;
    if (!t || !size) return;
    for (struct own *own = t->own; own < t->own + t->own_count; own++) {
        if (own->at == at && own->size == size) {
            note_bytes(t, STORE, own->place, at, size);
            note(t, LOG, name, own->place, 0, size, at);
            return;
        }
        if (at < own->at + own->size && own->at < at + size) t->mixed = true;
    }
    if (t->own_count == LOGS || t->arena + size > ARENA) {
        t->elsewhere++;
        return;
    }
    t->own[t->own_count++] = (struct own){at, size, t->arena};
    note(t, LOG, name, t->arena, 1, size, at); /* 1: these bytes open the arena */
    t->arena += size;
}
