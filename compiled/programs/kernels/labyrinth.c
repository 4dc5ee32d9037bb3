/* Wires through a grid of three layers, in the manner of STAMP's labyrinth: a transaction copies the whole grid, finds a
 * shortest way in its copy and lays it. No two ways cross, each goes from its begin to its end, and a wire without a way
 * had none. */
#include "../program.h"

enum { X = 24, Y = 24, Z = 3, CELLS = X * Y * Z, WIRES = 48, FREE = 0, WALL = -1, NO_WAY = -2 };
typedef short grid[CELLS];
static grid shared;
static struct {
    int from, to, length; /* length: of its way, or NO_WAY; 0 before */
} wire[WIRES];
static long taken, laid, without;
static int turn;

PURE static int neighbours_of(int cell, int *next) {
    int x = cell % X, y = cell / X % Y, z = cell / (X * Y), count = 0;
    if (x) next[count++] = cell - 1;
    if (x < X - 1) next[count++] = cell + 1;
    if (y) next[count++] = cell - X;
    if (y < Y - 1) next[count++] = cell + X;
    if (z) next[count++] = cell - X * Y;
    if (z < Z - 1) next[count++] = cell + X * Y;
    return count;
}

/* The cells of a shortest way through free ones, in `way`; how many. It looks at its thread's own memory alone. */
PURE static int shortest(const short *grid, int from, int to, int *way) {
    static __thread int distance[CELLS], queue[CELLS];
    int next[6], head = 0, tail = 0, length = 0;
    memset(distance, 0, sizeof distance);
    distance[from] = 1;
    queue[tail++] = from;
    while (head < tail && !distance[to]) {
        int cell = queue[head++];
        for (int n = neighbours_of(cell, next); n--;)
            if (!distance[next[n]] && grid[next[n]] == FREE) distance[next[n]] = distance[cell] + 1, queue[tail++] = next[n];
    }
    if (!distance[to]) return 0;
    for (int cell = to; distance[cell] > 1;) {
        way[length++] = cell;
        int n = neighbours_of(cell, next);
        while (n-- && distance[next[n]] != distance[cell] - 1);
        cell = next[n];
    }
    way[length++] = from;
    return length;
}

static int take_wire(void) {
    int number = -1;
    __transaction_atomic {
        if (taken < WIRES) number = taken++;
    }
    return number;
}

static void lay(int number) {
    int from = wire[number].from, to = wire[number].to, way[CELLS], length;
    __transaction_atomic {
        grid copy;
        memcpy(copy, shared, sizeof shared);
        length = copy[from] == FREE && copy[to] == FREE ? shortest(copy, from, to, way) : 0;
        let_others_run();
        for (int i = 0; i < length; i++) shared[way[i]] = number + 1;
        if (length) laid++;
        else without++;
    }
    wire[number].length = length ? length : NO_WAY;
}

/* Walks along the wire from its begin: each cell has one neighbour of the same wire that it did not come from. */
static void look_at(int number) {
    int cell = wire[number].from, before = -1, length = 1, next[6];
    check(shared[cell] == number + 1, "the begin of a wire");
    while (cell != wire[number].to && length <= CELLS) {
        int n = neighbours_of(cell, next);
        while (n-- && (shared[next[n]] != number + 1 || next[n] == before));
        if (n < 0) break;
        before = cell;
        cell = next[n];
        length++;
    }
    check(cell == wire[number].to && length == wire[number].length, "a wire");
}

static void look_at_all(void) {
    long cells = 0, due = 0;
    int way[CELLS];
    for (int i = 0; i < CELLS; i++) cells += shared[i] > 0;
    for (int i = 0; i < WIRES; i++) {
        if (wire[i].length > 0) {
            due += wire[i].length;
            look_at(i);
        } else {
            check(wire[i].length == NO_WAY, "a wire that nobody laid");
            bool ends_free = shared[wire[i].from] == FREE && shared[wire[i].to] == FREE;
            check(!ends_free || !shortest(shared, wire[i].from, wire[i].to, way), "a wire that has a way");
        }
    }
    check(cells == due && laid + without == WIRES, "the cells of all wires");
}

static void begin(unsigned long *seed) {
    memset(shared, 0, sizeof shared);
    for (int i = 0; i < CELLS / 8; i++) shared[pick(seed, CELLS)] = WALL;
    for (int i = 0; i < WIRES; i++) {
        do wire[i].from = pick(seed, CELLS), wire[i].to = pick(seed, CELLS);
        while (wire[i].from == wire[i].to || shared[wire[i].from] || shared[wire[i].to]);
        wire[i].length = 0;
    }
    taken = laid = without = 0;
}

static pthread_barrier_t turn_over;

void work(int thread, unsigned long *seed) {
    for (int i = 0; i < turn; i++) {
        for (int number; (number = take_wire()) >= 0;) lay(number);
        pthread_barrier_wait(&turn_over);
        if (thread == 0) {
            look_at_all();
            if (i + 1 < turn) begin(seed);
        }
        pthread_barrier_wait(&turn_over);
    }
}

void before(void) {
    unsigned long seed = 161803;
    turn = rounds / 150 + 1;
    begin(&seed);
    pthread_barrier_init(&turn_over, 0, threads);
}

bool after(void) {
    return laid > 4;
}
