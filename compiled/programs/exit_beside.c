/* The program ends while threads of it are in transactions that call functions by pointer: to the last moment each finds
 * its clone. */
#include "program.h"
#include <unistd.h>

typedef void change(void) SAFE;
static long up, down;

static SAFE void one(void) {
    up++;
}

static SAFE void other(void) {
    down--;
}

static void *life(void *none) {
    change *volatile which[2] = {one, other};
    for (int i = 0;; i ^= 1) {
        change *now = which[i];
        __transaction_atomic { now(); }
    }
    return none;
}

/* behind what the start files do as the program ends */
static void __attribute__((destructor(101))) end_late(void) {
    usleep(20000);
}

void before(void) {
    pthread_t made;
    for (int i = 0; i < threads; i++)
        if (pthread_create(&made, 0, life, 0) || pthread_detach(made)) abort();
}

void work(int thread, unsigned long *seed) {
    (void)thread, (void)seed;
    for (int i = 0; i < rounds; i++) __transaction_atomic { up++; }
}

bool after(void) {
    return true;
}
