/* A travel agency, in the manner of STAMP's vacation: tables of cars, rooms and flights, each a tree, and customers with a
 * list of what they have booked. One transaction books the cheapest of some of each kind, cancels all that a customer
 * has, or changes what is offered. What is booked is what the customers have; who leaves has paid what he booked. */
#include "../program.h"

enum { KINDS = 3, OFFERS = 64, CUSTOMERS = 48, ASKED = 4 };
struct offer {
    struct offer *left, *right;
    int number, total, used, price;
};
struct booking {
    struct booking *next;
    int kind, number, price;
};
struct customer {
    struct booking *first;
    long bill;
    bool is_there;
};
static struct {
    struct offer *root[KINDS];
    struct customer customer[CUSTOMERS];
    long income, refused;
} agency;
static long income_of[MOST_THREADS], refused_of[MOST_THREADS], added_of[MOST_THREADS];

SAFE static struct offer **place_of(int kind, int number) {
    struct offer **link = &agency.root[kind];
    while (*link && (*link)->number != number) link = number < (*link)->number ? &(*link)->left : &(*link)->right;
    return link;
}

/* Adds so many, which may be fewer, but never fewer than are booked. */
SAFE static bool change_offer(int kind, int number, int more, int price) {
    struct offer **link = place_of(kind, number), *offer = *link;
    if (!offer) {
        if (more < 0) return false;
        offer = calloc(1, sizeof *offer);
        offer->number = number;
        *link = offer;
    }
    if (offer->total + more < offer->used) return false;
    offer->total += more;
    offer->price = price;
    return true;
}

SAFE static void book(struct customer *customer, int kind, struct offer *offer) {
    struct booking *booking = malloc(sizeof *booking);
    *booking = (struct booking){customer->first, kind, offer->number, offer->price};
    customer->first = booking;
    customer->bill += offer->price;
    offer->used++;
}

SAFE static struct offer *cheapest(int kind, const int *numbers) {
    struct offer *best = 0;
    for (int i = 0; i < ASKED; i++) {
        struct offer *offer = *place_of(kind, numbers[i]);
        if (offer && offer->used < offer->total && (!best || offer->price < best->price)) best = offer;
    }
    return best;
}

/* One of each kind, or nothing. */
static bool make_trip(int who, int numbers[KINDS][ASKED]) {
    bool booked = false;
    __transaction_atomic {
        struct customer *customer = &agency.customer[who];
        customer->is_there = true;
        for (int kind = 0; kind < KINDS; kind++) {
            struct offer *offer = cheapest(kind, numbers[kind]);
            if (!offer) __transaction_cancel;
            let_others_run();
            book(customer, kind, offer);
        }
        booked = true;
    }
    return booked;
}

static long leave(int who) {
    long paid = 0;
    __transaction_atomic {
        struct customer *customer = &agency.customer[who];
        for (struct booking *at = customer->first, *next; at; at = next) {
            next = at->next;
            (*place_of(at->kind, at->number))->used--;
            free(at);
        }
        paid = customer->bill;
        *customer = (struct customer){0};
        agency.income += paid;
    }
    return paid;
}

void work(int thread, unsigned long *seed) {
    for (int i = 0; i < rounds; i++) {
        int who = pick(seed, CUSTOMERS), numbers[KINDS][ASKED];
        unsigned what = pick(seed, 10);
        if (what < 6) {
            for (int kind = 0; kind < KINDS; kind++)
                for (int j = 0; j < ASKED; j++) numbers[kind][j] = pick(seed, OFFERS);
            if (!make_trip(who, numbers)) {
                __transaction_atomic { agency.refused++; }
                refused_of[thread]++;
            }
        } else if (what < 8) {
            income_of[thread] += leave(who);
        } else {
            int kind = pick(seed, KINDS), number = pick(seed, OFFERS), more = (int)pick(seed, 5) - 2, price = 50 + pick(seed, 50);
            bool done;
            __transaction_atomic { done = change_offer(kind, number, more, price); }
            if (done) added_of[thread] += more;
        }
    }
}

void before(void) {
    unsigned long seed = 4711;
    for (int i = 0; i < KINDS * OFFERS; i++) {
        int kind = pick(&seed, KINDS), number = pick(&seed, OFFERS);
        __transaction_atomic { change_offer(kind, number, 2, 60); }
        added_of[0] += 2;
    }
}

static long total, used[KINDS][OFFERS];

static void count_offers(const struct offer *offer, int kind) {
    if (!offer) return;
    count_offers(offer->left, kind);
    check(offer->used <= offer->total && offer->used >= 0, "more was booked than there is");
    used[kind][offer->number] += offer->used;
    total += offer->total;
    count_offers(offer->right, kind);
}

bool after(void) {
    long income = 0, refused = 0, added = 0;
    for (int t = 0; t < threads; t++) income += income_of[t], refused += refused_of[t], added += added_of[t];
    for (int kind = 0; kind < KINDS; kind++) count_offers(agency.root[kind], kind);
    for (int who = 0; who < CUSTOMERS; who++) {
        long bill = 0;
        for (struct booking *at = agency.customer[who].first; at; at = at->next) bill += at->price, used[at->kind][at->number]--;
        check(bill == agency.customer[who].bill, "a bill");
    }
    for (int i = 0; i < KINDS * OFFERS; i++) check(used[i / OFFERS][i % OFFERS] == 0, "what is booked");
    return agency.income == income && agency.refused == refused && total == added;
}
