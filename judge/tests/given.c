/* Is compiled with words of the caller alone, and has them joined with the library of mathematics. */
#include <math.h>

#if !defined NO || !defined YES
#error the words for the compiler
#endif

double x = 2, root;

int main(void) {
    double now = sqrt(x) + cbrt(x);
    __transaction_atomic { root = now; }
}
