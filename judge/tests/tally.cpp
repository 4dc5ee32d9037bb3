// Threads count in an object whose class derives from another one, and keep nodes there that `new` made.
#include <cstdio>
#include <cstdlib>
#include <thread>
#include <vector>

#define SAFE __attribute__((transaction_safe))

class Counted {
protected:
    long times = 0, total = 0;
    SAFE void count(long by) { times++, total += by; }
};

class Tally : public Counted {
    struct Node {
        long value;
        Node *next;
    };
    Node *top = nullptr;

public:
    SAFE void push(long value) { top = new Node{value, top}; }

    SAFE bool pop() {
        Node *old = top;
        if (!old) return false;
        top = old->next;
        count(old->value);
        delete old;
        return true;
    }

    SAFE bool has(long all) const { return times == all && total == 2 * all; }
};

static Tally tally;

static void work(int rounds) {
    for (int i = 0; i < rounds; i++) {
        __transaction_atomic { tally.push(2); }
        __transaction_atomic { tally.pop(); }
    }
}

int main(int given, char **words) {
    int count = std::atoi(words[1]), rounds = given > 2 ? std::atoi(words[2]) : 250;
    std::vector<std::thread> threads;
    for (int i = 0; i < count; i++) threads.emplace_back(work, rounds);
    for (auto &thread : threads) thread.join();
    bool right;
    __transaction_atomic { right = tally.has((long)count * rounds); }
    if (!right) std::puts("a count was lost");
    return !right;
}
