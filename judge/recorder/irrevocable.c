/* Irrevocable attempts. They run alone, and GCC lets them store without the ABI. So the bytes that transactions have
 * touched are compared before each call, and what has changed is noted as writes. What they read without the ABI is not
 * seen. */
#include "recorder.h"

/* GCC gives pr_hasNoIrrevocable also to blocks in which it emits the mode call itself: it is taken back, or the plain
 * machine would refuse that call. */
void become_irrevocable(struct thread *t) {
    t->irrevocable = true;
    for (int i = 0; i < t->depth && i < DEEPEST; i++) t->block[i].begin->a &= ~NO_IRREVOCABLE;
    for (size_t i = 0; i < touched_count; i++) words[touched_words[i]].known = word_now(touched_words[i]);
}

static void note_changed(struct thread *t, size_t word, uint64_t changed) {
    const byte *at = address_of(8 * word);
    if (words[word].touched == 0xff) note_bytes(t, WRITE, 8 * word, at, 8);
    else
        for (int i = 0; i < 8; i++)
            if (changed >> 8 * i & 0xff) note_bytes(t, WRITE, 8 * word + i, at + i, 1);
}

void note_stores(struct thread *t) {
    for (size_t i = 0; i < touched_count; i++) {
        struct word *word = &words[touched_words[i]];
        uint64_t now = word_now(touched_words[i]), changed = (now ^ word->known) & mask_of(word->touched);
        if (!changed) continue;
        note_changed(t, touched_words[i], changed);
        word->known = now;
    }
}

/* A write by the ABI, that is noted already. */
void note_known(struct thread *t, size_t place, size_t size) {
    if (!t->irrevocable) return;
    for (size_t word = place / 8; word <= (place + size - 1) / 8; word++) words[word].known = word_now(word);
}
