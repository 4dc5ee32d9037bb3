/* What the files that write the recording share. */
#ifndef TELL_H
#define TELL_H
#include "recorder.h"
#include <stdio.h>

struct try {
    const struct event *from, *end;
    int thread;
    uint64_t key; /* by how many commits had returned as it ended; a commit is itself one more */
    uint64_t low, high;
    const char *outcome;
};

extern FILE *out;
void tell_hex(const void *bytes, size_t size);
void tell_words(const struct try *tries, size_t count); /* tell_words.c */
void tell_try(const struct try *);                      /* tell_try.c */

#endif
