/* Reads a large block in a transaction after it was freed, at a place that no transaction has touched: a bad reply. */
#include <stdlib.h>

enum { LENGTH = 100000 };
long *large, sum;

int main(void) {
    large = malloc(LENGTH * sizeof *large);
    for (int i = 0; i < LENGTH; i++) large[i] = i;
    __transaction_atomic { sum += large[7]; }
    free(large);
    __transaction_atomic { sum += large[8]; }
}
