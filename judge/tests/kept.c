/* Keeps a pointer to a node past the transaction that took the node out, and reads the node once it is freed. */
#include <stdlib.h>

struct node {
    long value;
};
struct node *top;
long sum;

__attribute__((noipa)) static struct node *take_out(void) {
    struct node *old;
    __transaction_atomic {
        old = top;
        sum += old->value;
        top = 0;
    }
    return old;
}

__attribute__((noipa)) static void add(const struct node *node) {
    __transaction_atomic { sum += node->value; }
}

int main(void) {
    top = malloc(sizeof *top);
    top->value = 1;
    struct node *kept = take_out();
    free(kept);
    add(kept);
}
