/* The other file of halves.c, in C++. */
#include "half.h"

static long all;

long half_of(long x) {
    all += x / 2;
    return x / 2;
}

long halves() { return all; }
