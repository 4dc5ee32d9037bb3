// The program has operators new and delete of its own, in a file that is built without transactions, as a library would be
// (new_replaced_plain.cc). What a block makes plain code deletes, and the other way round; a cancelled block's are deleted.
#include <cstdio>
#include <cstdlib>

extern long made, gone, sized_wrong;
struct node {
    node *next;
    long value;
};
static node *head;

static void push(long value) {
    __transaction_atomic {
        node *n = new node;
        n->value = value;
        n->next = head;
        head = n;
    }
}

static node *pop() {
    node *n;
    __transaction_atomic {
        n = head;
        if (n) head = n->next;
    }
    return n;
}

static void pop_inside() {
    __transaction_atomic {
        node *n = head;
        if (n) {
            head = n->next;
            delete n;
        }
    }
}

static void cancelled(bool back) {
    __transaction_atomic {
        node *n = new node;
        n->next = head;
        head = n;
        long *row = new long[9];
        row[8] = 1;
        delete[] row;
        if (back) __transaction_cancel;
    }
}

int main() {
    for (int i = 0; i < 100; i++) push(i);
    for (int i = 0; i < 50; i++) delete pop();
    for (int i = 0; i < 50; i++) pop_inside();
    node *p = new node;
    p->next = head;
    head = p;
    pop_inside();
    cancelled(true);
    cancelled(false);
    pop_inside();
    if (made != gone || made < 103 || head || sized_wrong) {
        std::printf("wrong: made %ld, gone %ld, %ld of another size\n", made, gone, sized_wrong);
        return 1;
    }
    std::puts("right");
}
